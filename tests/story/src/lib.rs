//! For people: scripts run by the library, or as journals; answers as lines, and a picture of the nodes.
//!
//! A script has one call a line, after the machine:
//!
//! ```text
//! machine A                       # a name, or nothing
//! pages 2 2 0 2                   # of each node
//! cpus 0 0 1 1 2 2 3 3            # the node of each CPU
//! distance 10 20 20 30            # a row for each node
//! distance 20 10 30 20
//! distance 20 30 10 20
//! distance 30 20 20 10
//! rebind 0 0-3                    # job, node list: what it is allowed, by the machine's numbers
//! map 0 3,1,0                     # the administrator: these nodes of the machine are the job's 0, 1, 2
//! keep 0 0,2                      # the tenant: the job keeps its nodes 0 and 2, which become 0 and 1
//! install 0 default               # default, or preferred alone: local
//! install 0 interleave 1-3 static # preferred, bind, interleave: node list; static, relative or nothing
//! install 0 ring 3,3,1            # list, ring, early: places; the last of a list may be 255
//! names SRAM DRAM0 FLASH DRAM1    # of each node, for programs that name their memory
//! note text SRAM ANY data DRAM0   # a note of a text and a data list, or of one
//! note bash.memtypes              # a note in a file beside the script
//! install 0 note text             # the note's text or data list as places; the default if it has none
//! why 0 cpu 4                     # the reason of each node for a request that is not made
//! drain 3                         # every page moves off a node, by the machine's number
//! request 0 cpu 4
//! release 0 page 5
//! clear 0
//! ```
//!
//! Node lists are document 01's, `all` and `+` by what the job is allowed at
//! that line; `none` is the empty set. A relative mask may name 0 to 63.
//! The node numbers of `install` and `keep` and of answers are the job's own;
//! until a `map` line they are the machine's. What `why` tells has the
//! machine's. A journal has no `map`, `keep` or `drain`, no names and notes, and
//! no `why`.

#![forbid(unsafe_code)]

pub mod answers;
mod call;
mod machine;
pub mod picture;
pub mod run;
pub mod script;
