/* The layout of the header's structures, the interface's number and those of its refusals, checked by the compiler; nothing is run. */
#include <float.h>

#include "transfer_list.h"

#if defined(__cplusplus)
#define HOLDS(name, condition) static_assert(condition, #name)
#elif __STDC_VERSION__ >= 201112L
#define HOLDS(name, condition) _Static_assert(condition, #name)
#else
#define HOLDS(name, condition) typedef char name[(condition) ? 1 : -1] /* C99 has no assertion; a negative size is an error */
#endif

#define SIZE(type, size) HOLDS(type##_whole, sizeof(type) == (size))
#define FIELD_OF(size, type, field, at) HOLDS(type##_##field, offsetof(type, field) == (at) && sizeof(((type *)0)->field) == (size))
#define FIELD(type, field, at) FIELD_OF(4, type, field, at)
#define NUMBER(name, number) HOLDS(name##_number, name == (number))

SIZE(tl_checked, 32);
FIELD(tl_checked, number, 0);
FIELD(tl_checked, version, 4);
FIELD(tl_checked, used, 8);
FIELD(tl_checked, total, 12);
FIELD(tl_checked, alignment, 16);
FIELD(tl_checked, live, 20);
FIELD(tl_checked, voids, 24);
FIELD(tl_checked, at, 28);

SIZE(tl_found, 16);
FIELD(tl_found, number, 0);
FIELD(tl_found, offset, 4);
FIELD(tl_found, size, 8);
FIELD(tl_found, at, 12);

SIZE(tl_done, 12);
FIELD(tl_done, number, 0);
FIELD(tl_done, value, 4);
FIELD(tl_done, at, 8);

SIZE(tl_certified, 24);
FIELD(tl_certified, number, 0);
FIELD(tl_certified, pass, 4);
FIELD_OF(8, tl_certified, reading, 8);
FIELD(tl_certified, at, 16);

SIZE(tl_steps, 72);
FIELD_OF(8, tl_steps, index, 0);
FIELD_OF(8, tl_steps, word, 8);
FIELD(tl_steps, phase, 16);
FIELD(tl_steps, byte, 20);
FIELD_OF(12, tl_steps, done, 24);
FIELD(tl_steps, checksum, 36);
FIELD(tl_steps, alignment, 40);
FIELD(tl_steps, used_size, 44);
FIELD(tl_steps, at, 48);
FIELD(tl_steps, padding, 52);
FIELD(tl_steps, tag_id, 56);
FIELD(tl_steps, data_size, 60);
FIELD(tl_steps, zeros, 64);
FIELD(tl_steps, behind, 68);

SIZE(tl_stepped, 88);
FIELD_OF(72, tl_stepped, state, 0);
FIELD(tl_stepped, ended, 72);
FIELD_OF(12, tl_stepped, done, 76);

/* the reading is an IEEE 754 number of 64 bits */
SIZE(double, 8);
HOLDS(double_digits, FLT_RADIX == 2 && DBL_MANT_DIG == 53 && DBL_MIN_EXP == -1021 && DBL_MAX_EXP == 1024);

NUMBER(TL_INTERFACE, 2);

NUMBER(TL_ACCEPTED, 0);
NUMBER(TL_AREA, 1);
NUMBER(TL_SHORT, 2);
NUMBER(TL_SIGNATURE, 3);
NUMBER(TL_VERSION, 4);
NUMBER(TL_READONLY, 5);
NUMBER(TL_SIZES, 6);
NUMBER(TL_CHECKSUM, 7);
NUMBER(TL_ENTRY, 8);
NUMBER(TL_TAG, 9);
NUMBER(TL_SHAPE, 10);
NUMBER(TL_ALIGN, 11);
NUMBER(TL_TARGET, 12);
NUMBER(TL_NONE, 13);
NUMBER(TL_ROOM, 14);
NUMBER(TL_JOURNAL, 16);
NUMBER(TL_FOREIGN, 17);
NUMBER(TL_CERTIFICATE, 18);
NUMBER(TL_IDENTITY, 19);
NUMBER(TL_CONTENTS, 20);
NUMBER(TL_FDT, 21);
NUMBER(TL_TAG_FDT, 1);
NUMBER(TL_TAG_CERTIFICATE, 0xfff010);
