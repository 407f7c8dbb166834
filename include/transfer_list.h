/*
 * transfer_list.h: transfer lists of the Firmware Handoff specification: check, find, create, add, void, tidy, relocate.
 * Of these add, add aligned and void also with a journal, so that a power cut leaves the old list or the new one.
 * Of the test certificate that a list carries: the reading, and pass or fail.
 * Of the device tree that a list carries: check, and the lookup of a property.
 * Of lists still in its edition 0.9: check, find, convert into a current list.
 *
 * Every function takes any bytes at any stated address, of any size. It ends, reads and writes only the memory that it is lent, and
 * gives the answer or one numbered refusal. A refused call changes no byte. Nothing has to be checked before calling.
 *
 * A buffer is a pointer and a length in bytes. A length of 0 is allowed; the pointer is then not used and may be NULL.
 * Buffers lent to one call must not overlap. `base` is the address that the area is to be taken to stand at; it is a number only and
 * need not be the pointer's value. Nothing is kept between calls.
 */
#ifndef TRANSFER_LIST_H
#define TRANSFER_LIST_H

#include <stdbool.h>
#include <stddef.h>
#include <stdint.h>

#ifdef __cplusplus
extern "C" {
#endif

/*
 * The number of this interface. It goes up by one when a program that was built against an older header must be rebuilt. Answers are
 * returned by value: a program and an archive of different numbers may overwrite each other's memory, and the linker does not tell.
 *	2  each answer type has `at` as its last field; a program built against the header without it, which had no number, must be rebuilt
 * A function that is only added does not raise it: a program that calls one does not link with an archive that has none. The functions
 * with a journal, and their steps, came so.
 */
#define TL_INTERFACE 2

/*
 * The numbers of refusals. A refusal answers its number, and every other number in the answer is 0, but for `at` of TL_ENTRY: that is the
 * offset, from the start of the area, of the first byte of the first entry in list order that breaks a rule, where its header starts. It
 * is never 0 then, and is 0 in every other answer, refused or not. Of a tl_stepped all this is said of done.
 * In lists of edition 0.9, which the tl09_ functions are for, used_size is called size, and total_size max_size.
 */
#define TL_ACCEPTED 0u   /* not refused */
#define TL_AREA 1u       /* base is no multiple of 8, base + len exceeds 2^48, or len exceeds 16,777,216 (16 MiB) */
#define TL_SHORT 2u      /* len is under 24; for tl_create, 24 or less; in edition 0.9, under 16 */
#define TL_SIGNATURE 3u  /* the signature is not 0x4a0fb10b; in edition 0.9, not 0x006ed0ff */
#define TL_VERSION 4u    /* the version is 0 */
#define TL_READONLY 5u   /* the version is over 1 and the call is an edit or a conversion */
#define TL_SIZES 6u      /* hdr_size, used_size or total_size is wrong, alignment is outside 3 to 21, or total_size exceeds len */
#define TL_CHECKSUM 7u   /* with has_checksum the exclusive or of the used bytes is not 0; without it the checksum byte is not 0; */
                         /* in edition 0.9, the checksum byte is not the sum modulo 256 of the other used bytes */
#define TL_ENTRY 8u      /* an entry's hdr_size is wrong, it exceeds used_size, or a void's data_size is no multiple of 8; `at` says where */
#define TL_TAG 9u        /* the tag is 0 or over 0xffffff; for the adds also 0x800000 to 0xffefff */
#define TL_SHAPE 10u     /* the tag may not carry data of this length: tag 5 under 4 bytes, 6 not 12, 0x100 not 8, 0x104 not 16, */
                         /* 0xfff010 not 56 */
#define TL_ALIGN 11u     /* the exponent is outside 3 to 21 */
#define TL_TARGET 12u    /* target base + target length exceeds 2^48, or the target length exceeds 16,777,216 */
#define TL_NONE 13u      /* no such occurrence of the tag; for tl_fdt_find() no such property */
#define TL_ROOM 14u      /* there is no room for it */

/* Those of the functions with a journal. There is no 15. */
#define TL_JOURNAL 16u   /* a record of the journal is not empty, or it has too few records for the edit; it comes after all others */
#define TL_FOREIGN 17u   /* of a recovery, a record's kind exceeds 2, or a word that it would apply is at no multiple of 8 or reaches */
                         /* beyond the area; of tl_step(), the state or the buffers are not those that the step before left */

/* Those of tl_certificate() alone. */
#define TL_CERTIFICATE 18u /* no entry or more than one has tag 0xfff010, or the one that has it is not 56 bytes long */
#define TL_IDENTITY 19u    /* the certificate's serial or test is not the one asked for */
#define TL_CONTENTS 20u    /* the kind is not 1, 2 or 3, counts exceed 2^24, a float or the reading is infinite or no number, gain is not */
                           /* above zero, an unused limit is not eight zero bytes, or a band's low exceeds its high */

/* That of tl_fdt_check() and tl_fdt_find() alone. */
#define TL_FDT 21u /* the data is no flattened device tree by the rules at tl_fdt_check() */

/* The tag of a device tree, and of a test certificate. */
#define TL_TAG_FDT 1u
#define TL_TAG_CERTIFICATE 0xfff010u

/* What a check answers. */
typedef struct {
    uint32_t number;    /* 0, or the number of the refusal */
    uint32_t version;   /* the list's version */
    uint32_t used;      /* used_size: bytes from the start of the area to the end of the last entry */
    uint32_t total;     /* total_size: bytes that the list may grow to */
    uint32_t alignment; /* the greatest data alignment, as a power of two's exponent */
    uint32_t live;      /* the number of entries that are not voids */
    uint32_t voids;     /* the number of void entries */
    uint32_t at;        /* of TL_ENTRY, where the first entry that breaks a rule starts; else 0 */
} tl_checked;

/* What a find answers. */
typedef struct {
    uint32_t number; /* 0, or the number of the refusal */
    uint32_t offset; /* where the data starts, counted from the start of the area; of tl_fdt_find(), where the value starts in the tree */
    uint32_t size;   /* how many bytes of data, without padding */
    uint32_t at;     /* of TL_ENTRY, where the first entry that breaks a rule starts; else 0; always 0 from tl_fdt_find() */
} tl_found;

/* What create, the edits and the conversion answer. */
typedef struct {
    uint32_t number; /* 0, or the number of the refusal */
    uint32_t value;  /* what the function says */
    uint32_t at;     /* of TL_ENTRY, where the first entry that breaks a rule starts; else 0; always 0 from tl_create() */
} tl_done;

/* What tl_certificate() answers. Compare its fields and not its bytes: padding may stand behind the last. */
typedef struct {
    uint32_t number; /* 0, or the number of the refusal */
    uint32_t pass;   /* 1 for a pass, 0 for a fail; 0 for a refusal too */
    double reading;  /* the reading, of a pass and of a fail; +0.0 for a refusal */
    uint32_t at;     /* of TL_ENTRY, where the first entry that breaks a rule starts; else 0 */
} tl_certified;

/*
 * What stands between two steps of an edit or a recovery. Its fields are the library's own: they are to be handed back as they were given,
 * and mean nothing to a caller. It has 72 bytes and no padding.
 */
typedef struct {
    uint64_t index, word;
    uint32_t phase, byte;
    tl_done done;
    uint32_t checksum, alignment, used_size, at, padding, tag_id, data_size, zeros, behind;
} tl_steps;

/* What a call that decides, and each step, answers. It has 88 bytes and no padding. */
typedef struct {
    tl_steps state; /* for the next step */
    uint32_t ended; /* 1 if nothing is to be stored any more, else 0 */
    tl_done done;   /* if ended, the answer; else every number in it is 0 */
} tl_stepped;

/**
 * tl_check - check a transfer list
 * @area: the bytes of the area that holds the list
 * @len: the number of bytes of the area
 * @base: the address at which the area stands
 *
 * tl_check() walks the list and checks every rule of it. Lists of version 1 and above are accepted. The area is only read.
 *
 * returns:
 *	number 0, and the list's version, used and total sizes, alignment, and numbers of live and void entries
 *	TL_AREA, TL_SHORT, TL_SIGNATURE, TL_VERSION, TL_SIZES, TL_CHECKSUM, TL_ENTRY, with their causes as above; the least number
 *	whose cause is there; TL_ENTRY with `at`, where the first entry that breaks a rule starts: its first eight bytes, from area + at
 *	on, lie in the used bytes. Every function that answers TL_ENTRY answers the `at` that its edition's check has for the list
 */
tl_checked tl_check(const uint8_t *area, size_t len, uint64_t base);

/**
 * tl_find - find the data of an entry
 * @area: the bytes of the area that holds the list
 * @len: the number of bytes of the area
 * @base: the address at which the area stands
 * @tag: the entry's tag
 * @n: which occurrence of the tag, counted from 0 in list order
 *
 * tl_find() checks the list as tl_check() does, and then looks for the entry. The area is only read.
 *
 * returns:
 *	number 0, and the offset and size of the data
 *	each refusal of tl_check()
 *	TL_TAG, the tag is 0 or over 0xffffff
 *	TL_NONE, the list has no such occurrence of the tag
 */
tl_found tl_find(const uint8_t *area, size_t len, uint64_t base, uint32_t tag, uint64_t n);

/**
 * tl_data - the data that a find found
 * @area: the area that was given to tl_find() or tl09_find(), or the data that was given to tl_fdt_find()
 * @found: its answer
 *
 * tl_data() gives a pointer to the data itself, inside the area and not a copy, of which found.size bytes are the entry's or the value's. Of
 * a refused find it gives the start of the area, with found.size 0. It is a small inline helper and not proved: it believes found, which
 * must be what tl_find(), tl09_find() or tl_fdt_find() answered for these very bytes. The proved forms that hand back the part itself are
 * the Rattle functions tl_find_data, tl09_find_data and tl_fdt_find_data in crates/transfer_list; a function that returns a slice cannot
 * be exported to C.
 *
 * returns:
 *	a pointer to found.size bytes
 */
static inline const uint8_t *tl_data(const uint8_t *area, tl_found found)
{
    return found.offset == 0 ? area : area + found.offset;
}

/**
 * tl_create - create an empty transfer list
 * @area: the bytes of the area to write
 * @len: the number of bytes of the area
 * @base: the address at which the area stands
 * @has_checksum: whether the list is to have a checksum
 *
 * tl_create() writes the header of a list of version 1 without entries, whose total_size is len rounded down to a multiple of 8, and
 * zero in every further byte of the area.
 *
 * returns:
 *	number 0, and the list's total_size
 *	TL_AREA, the area is not usable
 *	TL_SHORT, len is 24 or less
 */
tl_done tl_create(uint8_t *area, size_t len, uint64_t base, bool has_checksum);

/**
 * tl_add - add an entry
 * @area: the bytes of the area that holds the list
 * @len: the number of bytes of the area
 * @base: the address at which the area stands
 * @tag: the new entry's tag
 * @data: the new entry's data
 * @data_len: the number of bytes of data
 * @use_voids: whether the entry may take the place of a void
 *
 * tl_add() checks the list, and then writes the entry: with use_voids into the first void whose data_size is at least data_len, what is
 * left of it becoming a void of its own; else at used_size, which grows. Padding is written 0. The checksum byte is put right.
 *
 * returns:
 *	number 0, and the offset of the new data
 *	each refusal of tl_check()
 *	TL_READONLY, the list's version is over 1; it comes after TL_VERSION and before TL_SIZES
 *	TL_TAG, the tag is 0, over 0xffffff, or 0x800000 to 0xffefff
 *	TL_SHAPE, the tag is 5 and data_len is under 4 (a TPM event log's data begins with a flags word of 4 bytes), or the tag is 6,
 *	0x100, 0x104 or 0xfff010 and data_len is not 12, 8, 16 or 56, respectively
 *	TL_ROOM, no allowed void serves and the entry does not fit behind used_size
 */
tl_done tl_add(uint8_t *area, size_t len, uint64_t base, uint32_t tag, const uint8_t *data, size_t data_len, bool use_voids);

/**
 * tl_add_aligned - add an entry whose data address is a multiple of a power of two
 * @area: the bytes of the area that holds the list
 * @len: the number of bytes of the area
 * @base: the address at which the area stands
 * @tag: the new entry's tag
 * @data: the new entry's data
 * @data_len: the number of bytes of data
 * @exponent: the power of two's exponent
 *
 * tl_add_aligned() checks the list, and then writes the entry at used_size, behind a padding void where one is needed so that
 * base + offset of the data is a multiple of 2^exponent. The padding void takes fewer than 2^exponent bytes, with exponent 21 fewer than
 * 2 MiB, and its data are 0. tl_add_aligned() never uses a void. The alignment field becomes the larger of itself and exponent. The
 * checksum byte is put right.
 *
 * returns:
 *	number 0, and the offset of the new data
 *	each refusal of tl_add() before TL_ROOM
 *	TL_ALIGN, exponent is outside 3 to 21
 *	TL_ROOM, the padding void and the entry together do not fit behind used_size; neither is written
 */
tl_done tl_add_aligned(uint8_t *area, size_t len, uint64_t base, uint32_t tag, const uint8_t *data, size_t data_len, uint32_t exponent);

/**
 * tl_void - strike an entry out
 * @area: the bytes of the area that holds the list
 * @len: the number of bytes of the area
 * @base: the address at which the area stands
 * @tag: the entry's tag
 * @n: which occurrence of the tag, counted from 0 in list order
 *
 * tl_void() checks the list, and then turns the entry into a void over the same bytes, its data and padding 0. The checksum byte is put
 * right.
 *
 * returns:
 *	number 0, and the offset of the voided entry
 *	each refusal of tl_check(), and TL_READONLY as in tl_add()
 *	TL_TAG, the tag is 0 or over 0xffffff
 *	TL_NONE, the list has no such occurrence of the tag
 */
tl_done tl_void(uint8_t *area, size_t len, uint64_t base, uint32_t tag, uint64_t n);

/**
 * tl_tidy - join neighbouring voids and give back those at the end
 * @area: the bytes of the area that holds the list
 * @len: the number of bytes of the area
 * @base: the address at which the area stands
 *
 * tl_tidy() checks the list, and then makes each run of neighbouring voids one void over the same bytes, its data 0; one void alone is a
 * run. The run at the end is given back instead: used_size becomes the end of the last entry that is not a void, or 24 where there is
 * none, and the bytes given back become 0. The other entries stay where they are, padding included; alignment, total_size, flags, the
 * reserved word and the bytes behind the old used_size stay as they are. The checksum byte is put right. Tidying again changes nothing.
 * An add that was refused with TL_ROOM is then accepted if a joined void serves it, where it may use voids, or if it fits behind the new
 * used_size.
 *
 * returns:
 *	number 0, and the new used_size
 *	each refusal of tl_check(), and TL_READONLY as in tl_add()
 */
tl_done tl_tidy(uint8_t *area, size_t len, uint64_t base);

/**
 * tl_relocate - move a list to another area
 * @area: the bytes of the area that holds the list
 * @len: the number of bytes of the area
 * @base: the address at which the area stands
 * @target: the bytes of the target to write
 * @target_len: the number of bytes of the target
 * @target_base: the address at which the target stands; it need not be a multiple of 8
 *
 * tl_relocate() checks the list, and then copies its used bytes to the lowest address at or above target_base that equals base modulo
 * 2^alignment, so that data stay aligned. total_size becomes what is left of the target from there, rounded down to a multiple of 8.
 * Every other byte of the target becomes 0. The area is only read. The list is then in the target from the shift on, at
 * target_base + shift.
 *
 * returns:
 *	number 0, and the shift
 *	each refusal of tl_check(), and TL_READONLY as in tl_add()
 *	TL_TARGET, target_base + target_len exceeds 2^48 or target_len exceeds 16,777,216
 *	TL_ROOM, shift + used_size exceeds target_len
 */
tl_done tl_relocate(const uint8_t *area, size_t len, uint64_t base, uint8_t *target, size_t target_len, uint64_t target_base);

/**
 * tl_certificate - read the test certificate of a valve, and say whether it passes
 * @area: the bytes of the area that holds the list
 * @len: the number of bytes of the area
 * @base: the address at which the area stands
 * @serial: the serial of the valve asked for
 * @test: the number of the test asked for
 *
 * tl_certificate() checks the list as tl_check() does, and then looks for the one entry with tag TL_TAG_CERTIFICATE; voids do not count.
 * If it is that of this serial and test and its contents are sound, the reading is gain times counts, then plus offset, each rounded
 * once, to the nearest float, ties to even; and it is a pass if it is inside the gate, limits included. Lists of version 1 and above are
 * read. The area is only read.
 *
 * The 56 bytes of a certificate, each number's lowest byte first; a float is an IEEE 754 number of 64 bits:
 *	 0  serial  8 bytes
 *	 8  test    8 bytes
 *	16  kind    4 bytes  the gate: 1 a band from low to high, 2 a ceiling with high, 3 a floor with low
 *	20  counts  4 bytes  at most 2^24
 *	24  gain    a float  above zero; with offset, the gauge's calibration
 *	32  offset  a float
 *	40  low     a float  eight zero bytes (so not -0.0) for a ceiling; for a band, at most high
 *	48  high    a float  eight zero bytes (so not -0.0) for a floor
 * Gain 0.25, offset -100 and counts 4000 read exactly 900. The reading is never -0.0.
 * The adds see to the length alone: they do not judge the 56 bytes, nor whether the list has a certificate already.
 *
 * Tell a refusal and a fail apart by the number alone. A fail has number 0, pass 0 and its reading; a refusal has pass 0 too, and the
 * reading +0.0, which a certificate can also read.
 *
 * The floating-point environment is taken to be the default one: rounding to nearest, small numbers neither taken for zero nor flushed
 * to it, no traps. Its exception flags, such as "inexact", may be set afterwards. The call uses floating-point registers, on x86-64 xmm
 * registers, as the code of other calls here does too: an interrupt handler or kernel code must save them.
 *
 * returns:
 *	number 0, pass 1 or 0, and the reading
 *	each refusal of tl_check()
 *	TL_CERTIFICATE, no entry of the list has the tag, more than one has it, or the one that has it is not 56 bytes long
 *	TL_IDENTITY, the certificate's serial is not serial, or its test is not test
 *	TL_CONTENTS, the kind is not 1, 2 or 3; counts exceed 2^24; gain, offset, low, high or the reading is infinite or no number, the
 *	reading also where only the product is infinite; gain is 0 or below; an unused limit is not eight zero bytes; or a band's low
 *	exceeds its high
 *	of these, the least number whose cause is there
 */
tl_certified tl_certificate(const uint8_t *area, size_t len, uint64_t base, uint64_t serial, uint64_t test);

/**
 * tl_fdt_check - check a flattened device tree
 * @data: the bytes of the tree, as they are the data of an entry with tag TL_TAG_FDT
 * @len: the number of bytes
 *
 * tl_fdt_check() checks the data by the Devicetree Specification's flattened format, version 17, last compatible 16. It takes the data alone:
 * no list, no address, and any length. Numbers are big-endian. Accepted is exactly what keeps these rules:
 *	the magic number is 0xd00dfeed, version is 17, last_comp_version 16; boot_cpuid_phys is not judged
 *	the blocks stand in the order header (40 bytes), reservation, structure, strings, without overlap, within totalsize, and totalsize
 *	is at most len; there may be any bytes between them, behind the strings and behind totalsize
 *	off_mem_rsvmap is a multiple of 8; off_dt_struct and size_dt_struct are multiples of 4
 *	the reservation block ends with its first pair of 16 zero bytes, at or before off_dt_struct
 *	the structure is one root node with an empty name and then FDT_END, which ends it exactly; a node's properties come before its
 *	subnodes; FDT_NOP may stand before any token
 *	a property's length, name offset, value and padding lie in the structure, whatever the length says; there are no other tokens
 *	names end in a zero byte, a node's in the structure, a property's in the strings block; which letters they have, and how many, is not
 *	judged, nor is a name that is there twice
 *	padding to 4 behind a node's name and a value is zero
 *	at most 16 nodes stand inside each other, the root counted
 *
 * Trees that libfdt edited in place (fdtput, fdtoverlay, QEMU's dumps of its virt machine) often keep old bytes in padding, and are refused.
 * A pass through dtc (dtc -I dtb -O dtb) writes clean padding.
 *
 * The stack that the call takes is bounded: it does not grow with the data, and with nesting only up to those 16.
 *
 * returns:
 *	0
 *	TL_FDT, a rule above is broken
 */
uint32_t tl_fdt_check(const uint8_t *data, size_t len);

/**
 * tl_fdt_find - find a property of a flattened device tree
 * @data: the bytes of the tree
 * @len: the number of bytes
 * @path: the node's path: "/" for the root, else "/" before each full name from below the root on, unit addresses included
 * @path_len: the number of bytes of the path, without any zero byte behind it
 * @name: the property's name
 * @name_len: the number of bytes of the name, without any zero byte behind it
 *
 * tl_fdt_find() checks the tree as tl_fdt_check() does, and then looks for the first property in block order that has this name and stands
 * under exactly these node names. Bytes are compared. Where nodes side by side have the same name, all of them are looked into. A path is
 * cut at every slash, so a node whose name is empty or has a slash, and all below it, cannot be reached. An empty property name can be
 * asked for. A path or a name with a zero byte in it finds nothing, nor does a path of 16 names or more. tl_data() makes a pointer of the
 * answer, with data in the area's place. The stack that the call takes is bounded as that of tl_fdt_check() is.
 *
 * returns:
 *	number 0, and the offset and size of the value, counted from the start of data; size 0 for an empty value
 *	TL_FDT, as tl_fdt_check()
 *	TL_NONE, there is no such property; so for any path that is neither "/" nor "/" before each of one or more names, none empty
 */
tl_found tl_fdt_find(const uint8_t *data, size_t len, const uint8_t *path, size_t path_len, const uint8_t *name, size_t name_len);

/*
 * Edition 0.9 of the specification, which some stages still hand their lists over in. Its header has 16 bytes: the signature 0x006ed0ff,
 * then checksum, version, hdr_size, alignment, size and max_size, where a current header has its first fields, and no flags. There is
 * always a checksum: byte 4 equals the sum modulo 256 of bytes 0 to size - 1 without byte 4. Entries are those of a current list. Lists
 * of edition 0.9 can be checked, searched and converted into current lists, not created or edited. The functions above that read a list
 * refuse them with TL_SIGNATURE (tl_create() overwrites whatever is there), and so do the functions below with current lists, where no
 * lower number's cause is there.
 */

/**
 * tl09_check - check a transfer list of edition 0.9
 * @area: the bytes of the area that holds the list
 * @len: the number of bytes of the area
 * @base: the address at which the area stands
 *
 * tl09_check() walks the list and checks every rule of it. Lists of version 1 and above are accepted. The area is only read.
 *
 * returns:
 *	number 0, and the list's version, its size as used, its max_size as total, its alignment, and its numbers of live and void entries
 *	TL_AREA, base is no multiple of 8, base + len exceeds 2^48, or len exceeds 16,777,216
 *	TL_SHORT, len is under 16
 *	TL_SIGNATURE, the signature is not 0x006ed0ff
 *	TL_VERSION, the version is 0
 *	TL_SIZES, hdr_size is not 16 (version 1) or is under 16 (above), alignment is outside 3 to 21, size or max_size is no multiple of 8,
 *	size is under hdr_size rounded up to a multiple of 8, size exceeds max_size, or max_size exceeds len
 *	TL_CHECKSUM, the checksum byte is not the sum modulo 256 of the other bytes of size
 *	TL_ENTRY, an entry's hdr_size is not 8 (version 1) or is under 8 (above), it reaches beyond size, or a void's data_size is no
 *	multiple of 8; with `at`, as tl_check()
 *	of these, the least number whose cause is there
 */
tl_checked tl09_check(const uint8_t *area, size_t len, uint64_t base);

/**
 * tl09_find - find the data of an entry in a list of edition 0.9
 * @area: the bytes of the area that holds the list
 * @len: the number of bytes of the area
 * @base: the address at which the area stands
 * @tag: the entry's tag
 * @n: which occurrence of the tag, counted from 0 in list order
 *
 * tl09_find() checks the list as tl09_check() does, and then looks for the entry. The area is only read. tl_data() serves its answer too.
 *
 * returns:
 *	number 0, and the offset and size of the data
 *	each refusal of tl09_check()
 *	TL_TAG, the tag is 0 or over 0xffffff
 *	TL_NONE, the list has no such occurrence of the tag
 */
tl_found tl09_find(const uint8_t *area, size_t len, uint64_t base, uint32_t tag, uint64_t n);

/**
 * tl09_convert - convert a list of edition 0.9 into a current list
 * @area: the bytes of the area that holds the list of edition 0.9
 * @len: the number of bytes of the area
 * @base: the address at which the area stands
 * @target: the bytes of the target to write
 * @target_len: the number of bytes of the target
 * @target_base: the address at which the target stands; it need not be a multiple of 8
 *
 * tl09_convert() checks the list, and then writes a current list of version 1 with has_checksum and the same entries. It starts at the
 * lowest address at or above target_base that equals base - 8 modulo 2^alignment: its header is 8 bytes longer, so that each data
 * address keeps its value modulo 2^alignment. The header is that of a new list, but that alignment is the old one, used_size is size + 8,
 * total_size is what is left of the target from there, rounded down to a multiple of 8, and the checksum byte is that of the new list.
 * The entries' bytes are copied as they stand, padding and voids' data too; neither a tag nor a data length is judged. Every other byte
 * of the target becomes 0. The area is only read. The list is then in the target from the shift on, at target_base + shift.
 *
 * returns:
 *	number 0, and the shift
 *	each refusal of tl09_check()
 *	TL_READONLY, the list's version is over 1; it comes after TL_VERSION and before TL_SIZES
 *	TL_TARGET, target_base + target_len exceeds 2^48 or target_len exceeds 16,777,216
 *	TL_ROOM, shift + size + 8 exceeds target_len; so a list whose size is 16,777,216 cannot be converted
 */
tl_done tl09_convert(const uint8_t *area, size_t len, uint64_t base, uint8_t *target, size_t target_len, uint64_t target_base);

/*
 * Power cuts. An edit stores many bytes, one after another. Where the area is in memory that keeps its bytes without power and the power
 * fails in between, the area is neither the old list nor the new one. The functions below make an add, an aligned add or a void with a
 * journal, a second buffer in memory that keeps its bytes too. After a cut at whatever byte, tl_recover() gives exactly the area as it
 * was before the edit, or exactly the area that the plain call makes of it. It may be cut as well, any number of times: the one that
 * runs to its end gives it. So the order of work is:
 *	once, before the first use: the kind of every record 0, for instance by clearing the whole journal
 *	at each start, before anything is read from the area or changed in it: tl_recover(), with the same area and journal and with the
 *	same len and journal_len as the edit had: with fewer records it may miss the commit, and clear what it did not apply
 *	edits, each with the same journal; also edits without one, which are not safe against a cut, and calls that only read
 * Until a recovery has run to its end, nothing is to be concluded from the area's bytes, whatever tl_check() says of them.
 *
 * The journal is a row of records of 16 bytes, without a header. Only whole records count, journal_len / 16 of them, called R below; up
 * to 15 bytes may stand behind them, which are never written. A record:
 *	 0  kind    1 byte   0 empty, 1 a word, 2 the commit
 *	 1          3 bytes  0
 *	 4  offset  4 bytes  of a word, where it stands in the area, a multiple of 8; its lowest byte first; of the commit 0
 *	 8  data    8 bytes  of a word, its eight bytes as the edit leaves them; of the commit 0
 * A word is eight bytes of the area, from a multiple of 8 on, counted from the area's first byte. Up to 7 bytes behind the last whole
 * word belong to none, and no edit changes them. An edit changes a word if its eight bytes afterwards differ from those before; the
 * number of words that it changes is called w below, and is at least 1. Its stores, each of one byte, are in this order:
 *	a record for each word that it changes, in rising order of offset: bytes 1 to 15, then the kind
 *	the record of the commit: bytes 1 to 15, then the kind
 *	the words themselves in the area, in the same order, each with its eight bytes, changed or not
 *	0 in the kind of each of the R records, first to last, 0 already or not
 * These are 16 * (w + 1) + 8 * w + R stores. Number 16 * (w + 1) stores the kind of the commit: after a cut before it a recovery gives
 * the old area, from it on the new one.
 *
 * The journal must have at least 16 * (w + 1) bytes. With n bytes of data, and (n + 7) / 8 rounded down, that is at most:
 *	16 * (4 + (n + 7) / 8)                     an add: two words of the header, the entry's; or one of the header, the entry's, and
 *	                                           the header of the void behind it
 *	16 * (3 + (n + 7) / 8 + 2^exponent / 8)    an aligned add, with a padding void of which every byte changes
 *	16 * (5 + (n + 7) / 8)                     an aligned add where the bytes from used_size to total_size are 0, as this library's
 *	                                           calls leave them in a list that tl_create() made
 *	16 * (3 + (n + 7) / 8)                     a void, n being the data_size of the entry, as tl_find() answers it
 * Any journal_len is allowed; each further record costs one store in every edit and in every recovery.
 *
 * What the compiler and the machine may do. What is proved is about the order of the stores in the language that the library is written
 * in. Within one call a compiler may join plain stores, widen or move them, and a cache may write its lines back in any order. So a
 * whole call, as tl_add_journalled(), has the order above only as far as its machine code keeps it. (`make cuts` runs that code one
 * instruction at a time, on a few edits and their recoveries, and recovers from what both buffers hold after each; it cannot look behind
 * a cache.) A step is one call, of
 * tl_step(), that stores one byte. So a caller that steps, and where the memory stands behind a cache flushes both buffers after each step,
 * or the one line of them that the step has changed, has the order above on the machine. For memory that must survive a cut, use the
 * steps. demo/flush.c has the loop.
 *
 * What stays behind. Spent records keep their bytes 1 to 15, and so the journal keeps the data of an add until later records overwrite
 * them, also after the entry has been struck out. That what was struck out is gone is said of the area. Who wants it gone from the
 * journal too clears the journal himself, once an edit or a recovery has ended.
 *
 * As for every other call, the area, the journal and the data must not overlap.
 */

/**
 * tl_add_journalled - add an entry, with a journal
 * @area: the bytes of the area that holds the list
 * @len: the number of bytes of the area
 * @base: the address at which the area stands
 * @tag: the new entry's tag
 * @data: the new entry's data
 * @data_len: the number of bytes of data
 * @use_voids: whether the entry may take the place of a void
 * @journal: the bytes of the journal, the kind of each record 0
 * @journal_len: the number of bytes of the journal
 *
 * tl_add_journalled() leaves the area as tl_add() does, by the stores above. Afterwards the kind of each record is 0.
 *
 * returns:
 *	number 0, and the offset of the new data
 *	each refusal of tl_add(), TL_ENTRY with its `at`
 *	TL_JOURNAL, the kind of some whole record is not 0, whether the edit would use the record or not, or w + 1 exceeds R; it comes after
 *	all others. With under 32 bytes of journal no edit is accepted. A refused call stores nothing in either buffer. Where a kind is not 0 an edit was
 *	cut: call tl_recover() first
 */
tl_done tl_add_journalled(uint8_t *area, size_t len, uint64_t base, uint32_t tag, const uint8_t *data, size_t data_len, bool use_voids,
                          uint8_t *journal, size_t journal_len);

/**
 * tl_add_aligned_journalled - add an entry whose data address is a multiple of a power of two, with a journal
 * @area: the bytes of the area that holds the list
 * @len: the number of bytes of the area
 * @base: the address at which the area stands
 * @tag: the new entry's tag
 * @data: the new entry's data
 * @data_len: the number of bytes of data
 * @exponent: the power of two's exponent
 * @journal: the bytes of the journal, the kind of each record 0
 * @journal_len: the number of bytes of the journal
 *
 * tl_add_aligned_journalled() leaves the area as tl_add_aligned() does, by the stores above. Afterwards the kind of each record is 0.
 *
 * returns:
 *	number 0, and the offset of the new data
 *	each refusal of tl_add_aligned(), TL_ENTRY with its `at`
 *	TL_JOURNAL, as tl_add_journalled()
 */
tl_done tl_add_aligned_journalled(uint8_t *area, size_t len, uint64_t base, uint32_t tag, const uint8_t *data, size_t data_len,
                                  uint32_t exponent, uint8_t *journal, size_t journal_len);

/**
 * tl_void_journalled - strike an entry out, with a journal
 * @area: the bytes of the area that holds the list
 * @len: the number of bytes of the area
 * @base: the address at which the area stands
 * @tag: the entry's tag
 * @n: which occurrence of the tag, counted from 0 in list order
 * @journal: the bytes of the journal, the kind of each record 0
 * @journal_len: the number of bytes of the journal
 *
 * tl_void_journalled() leaves the area as tl_void() does, by the stores above. Afterwards the kind of each record is 0. The entry's data
 * are gone from the area; where an add with this journal put them in, they may still stand in a spent record.
 *
 * returns:
 *	number 0, and the offset of the voided entry
 *	each refusal of tl_void(), TL_ENTRY with its `at`
 *	TL_JOURNAL, as tl_add_journalled()
 */
tl_done tl_void_journalled(uint8_t *area, size_t len, uint64_t base, uint32_t tag, uint64_t n, uint8_t *journal, size_t journal_len);

/**
 * tl_recover - finish or drop what a power cut left in the journal
 * @area: the bytes of the area
 * @len: the number of bytes of the area
 * @journal: the bytes of the journal
 * @journal_len: the number of bytes of the journal
 *
 * tl_recover() looks for the first record whose kind is not 1. If it is a commit, the words of the records before it are stored in the
 * area, in their order, each with its eight bytes. If it is empty, or there is none, no word is stored. Then, in either case, 0 is
 * stored in the kind of each of the R records, first to last. Records behind the commit are not applied, and are cleared as well.
 *
 * It makes no check but the one for TL_FOREIGN, and takes any bytes for records: not the list, nor a base, nor a limit of len, nor
 * bytes 1 to 3 of a record, nor the bytes of the commit, nor whether an offset comes twice (the later one stays) is judged. So it may be
 * called at each start, and again, and with a journal in which nothing is; but hand it only a journal that was cleared before its first
 * use, and the area that this journal is for. Which of the two areas it gave is not answered; whether the edit's entry is there,
 * tl_find() shows.
 *
 * returns:
 *	number 0, and value 0; without a whole record too
 *	TL_FOREIGN, the kind of some whole record exceeds 2, behind the commit too, or a word that is to be stored has an offset that is
 *	no multiple of 8, or one whose sum with 8 exceeds len (no sum wraps). All this is judged before the first store, and nothing changes.
 *	No edit of this area left such a journal: it is another's, or the memory has lost its bytes
 */
tl_done tl_recover(uint8_t *area, size_t len, uint8_t *journal, size_t journal_len);

/**
 * tl_add_steps - decide on an add that is to be made in steps
 * @area: the bytes of the area that holds the list
 * @len: the number of bytes of the area
 * @base: the address at which the area stands
 * @tag: the new entry's tag
 * @data: the new entry's data
 * @data_len: the number of bytes of data
 * @use_voids: whether the entry may take the place of a void
 * @journal: the bytes of the journal, the kind of each record 0
 * @journal_len: the number of bytes of the journal
 *
 * tl_add_steps() makes every check of tl_add_journalled() and stores nothing. If none refuses, tl_step() then makes the stores, one byte
 * in each call, 16 * (w + 1) + 8 * w + R of them. Run to the end, the steps leave both buffers as tl_add_journalled() does, and the last
 * one gives its answer.
 *
 * returns:
 *	ended 0, every number in done 0, and the state for the first step
 *	ended 1, and in done the refusal, as tl_add_journalled() answers it
 */
tl_stepped tl_add_steps(const uint8_t *area, size_t len, uint64_t base, uint32_t tag, const uint8_t *data, size_t data_len, bool use_voids,
                        const uint8_t *journal, size_t journal_len);

/**
 * tl_add_aligned_steps - decide on an aligned add that is to be made in steps
 * @area: the bytes of the area that holds the list
 * @len: the number of bytes of the area
 * @base: the address at which the area stands
 * @tag: the new entry's tag
 * @data: the new entry's data
 * @data_len: the number of bytes of data
 * @exponent: the power of two's exponent
 * @journal: the bytes of the journal, the kind of each record 0
 * @journal_len: the number of bytes of the journal
 *
 * tl_add_aligned_steps() is to tl_add_aligned_journalled() what tl_add_steps() is to tl_add_journalled(). It stores nothing.
 *
 * returns:
 *	ended 0, every number in done 0, and the state for the first step
 *	ended 1, and in done the refusal, as tl_add_aligned_journalled() answers it
 */
tl_stepped tl_add_aligned_steps(const uint8_t *area, size_t len, uint64_t base, uint32_t tag, const uint8_t *data, size_t data_len,
                                uint32_t exponent, const uint8_t *journal, size_t journal_len);

/**
 * tl_void_steps - decide on a void that is to be made in steps
 * @area: the bytes of the area that holds the list
 * @len: the number of bytes of the area
 * @base: the address at which the area stands
 * @tag: the entry's tag
 * @n: which occurrence of the tag, counted from 0 in list order
 * @journal: the bytes of the journal, the kind of each record 0
 * @journal_len: the number of bytes of the journal
 *
 * tl_void_steps() is to tl_void_journalled() what tl_add_steps() is to tl_add_journalled(). It stores nothing.
 *
 * returns:
 *	ended 0, every number in done 0, and the state for the first step
 *	ended 1, and in done the refusal, as tl_void_journalled() answers it
 */
tl_stepped tl_void_steps(const uint8_t *area, size_t len, uint64_t base, uint32_t tag, uint64_t n, const uint8_t *journal, size_t journal_len);

/**
 * tl_recover_steps - decide on a recovery that is to be made in steps
 * @area: the bytes of the area
 * @len: the number of bytes of the area
 * @journal: the bytes of the journal
 * @journal_len: the number of bytes of the journal
 *
 * tl_recover_steps() makes the check of tl_recover() and stores nothing. tl_step() then makes the stores of tl_recover(), one byte in
 * each call: eight for each word that is to be stored, and R. Run to the end, the steps leave both buffers as tl_recover() does.
 *
 * returns:
 *	ended 0, every number in done 0, and the state for the first step
 *	ended 1, and in done number 0 and value 0, the journal has no whole record
 *	ended 1, and in done TL_FOREIGN, as tl_recover()
 */
tl_stepped tl_recover_steps(const uint8_t *area, size_t len, const uint8_t *journal, size_t journal_len);

/**
 * tl_step - store the next byte of an edit or a recovery
 * @state: the state that the call that decided, or the step before, answered
 * @area: the bytes of the area that was given to the call that decided, as the step before left them
 * @len: the number of bytes of the area, the same as then
 * @data: of an add, the same data as were given to the call that decided; of a void or a recovery, NULL
 * @data_len: the number of bytes of data, the same as then; of a void or a recovery, 0
 * @journal: the bytes of the journal that was given to the call that decided, as the step before left them
 * @journal_len: the number of bytes of the journal, the same as then
 *
 * tl_step() stores one byte, in the area or in the journal, the next in the order above. The state is a value, kept by the caller, in
 * any memory: after a cut it is of no more use, and a recovery does not need it. Nobody else may change the area, the journal or the
 * data from the call that decided to the last step. Steps need not be run to the end: a recovery afterwards gives the old area or the
 * new one, as after a cut. Until that recovery no other edit may be made, not even a plain one: the recovery might undo parts of it.
 * From any state, a loop until ended is 1 ends, after at most 25 * R + 3 steps.
 *
 * After the end, which a refusal by the call that decided is too, a step stores nothing and gives the same answer again.
 *
 * Handed another state, or buffers other than the step before left, a step still ends and stays within the memory that it is lent. It
 * stores at most one byte of it, or it stores nothing and answers TL_FOREIGN. It does not notice every such state or buffer: a byte that
 * it then stores may be any, so do not count on TL_FOREIGN.
 *
 * returns:
 *	ended 0, every number in done 0, and the state for the next step: a byte was stored, and more are to be
 *	ended 1, and in done number 0 and the value: the last byte, if any, was stored, now or by an earlier step
 *	ended 1, and in done the refusal of the call that decided: nothing was stored
 *	ended 1, and in done TL_FOREIGN: nothing was stored; a step with the state that is given with it stores nothing and answers the
 *	same, whatever buffers it is handed
 */
tl_stepped tl_step(tl_steps state, uint8_t *area, size_t len, const uint8_t *data, size_t data_len, uint8_t *journal, size_t journal_len);

#ifdef __cplusplus
}
#endif

#endif
