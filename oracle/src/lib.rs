//! The second implementation of document 01 and of document 02, requests 1 to 3 and 5 to 9: the model of
//! their jobs, the lists and device trees it is tried on, and what is demanded of a result said once more.
//! Nothing here needs the library under test.

pub mod add_lengths;
pub mod alignments;
pub mod causes;
pub mod certificate;
pub mod certificate_numbers;
pub mod certificate_values;
pub mod damage;
pub mod demand;
pub mod demand09;
pub mod demand_certificate;
pub mod demand_entry;
pub mod demand_fdt;
pub mod demand_journal;
pub mod demand_tidy;
pub mod entry_sights;
pub mod exact;
pub mod fdt_asked;
pub mod fdt_breaks;
pub mod fdt_breaks_blocks;
pub mod fdt_breaks_names;
pub mod fdt_breaks_reservation;
pub mod fdt_breaks_tokens;
pub mod fdt_damage;
pub mod fdt_found;
pub mod fdt_listing;
pub mod fdt_rules;
pub mod fdt_sights;
pub mod fdt_tree;
pub mod fdt_trees;
pub mod journal_sights;
pub mod journals;
pub mod lists;
pub mod lists09;
pub mod lists_certificate;
pub mod lists_entry;
pub mod lists_journal;
pub mod model;
pub mod model09;
pub mod model_certificate;
pub mod model_fdt;
pub mod model_journal;
pub mod model_tidy;
pub mod params;
pub mod rng;
pub mod runs;
pub mod sights;
pub mod tally;

#[cfg(test)]
mod examples;
#[cfg(test)]
mod examples09;
#[cfg(test)]
mod examples_certificate;
#[cfg(test)]
mod examples_entry;
#[cfg(test)]
mod examples_event_log;
#[cfg(test)]
mod examples_fdt;
#[cfg(test)]
mod examples_fdt_rows;
#[cfg(test)]
mod examples_fdt_structure;
#[cfg(test)]
mod examples_journal;
#[cfg(test)]
mod examples_journal_demand;
#[cfg(test)]
mod examples_tidy;
