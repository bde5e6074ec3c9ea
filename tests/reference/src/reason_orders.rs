//! M-106's reasons from outside: what each says of document 01's search order, found from orders and page bytes alone.

use crate::calls::{first_with_room, Tables};
use crate::machine::{lowest_free_page, UNREACHABLE};
use crate::maps::{map_of, nodes_in};
use crate::order::{search_order, Machine, Try};
use crate::record::{fresh, has_a_list, read, Record};

/// The order of a record on the machine with these distances.
fn order_of(tables: &Tables, distances: &[u8], record: &Record, job: usize, cpu: usize) -> Vec<Try> {
    let machine = Machine { nodes: tables.counts.len(), cpus: &tables.cpus, distances };
    let limit = record.allowed & nodes_in(map_of(&tables.maps, job));
    search_order(machine, record, limit, cpu)
}

/// The reasons of a request that would be granted or refused 8, the counts matching. A node in the order is full, the first
/// with a free page, or neither. A node that is not is not allowed if even default passes over it where every node can be
/// reached; in modes 4 to 6 it is not named; else it is unreachable if it would be in the order were it reached.
pub fn by_orders(tables: &Tables, job: usize, cpu: usize) -> Vec<u8> {
    let Tables { counts, pages, distances, jobs, .. } = tables;
    let all_reached: Vec<u8> = distances.iter().map(|far| (*far).min(UNREACHABLE - 1)).collect();
    let record = read(jobs, job);
    let default = Record { allowed: record.allowed, ..fresh() };
    let order = order_of(tables, distances, &record, job, cpu);
    let if_reached = order_of(tables, &all_reached, &record, job, cpu);
    let allowed = order_of(tables, &all_reached, &default, job, cpu);
    let first = first_with_room(counts, pages, &order).map(|one| one.node);
    let reason = |node| {
        let tries = |order: &[Try]| order.iter().any(|one| one.node == node);
        match (tries(&order), lowest_free_page(counts, pages, node)) {
            (true, None) => 5,
            (true, Some(_)) => 7 - u8::from(first == Some(node)),
            _ if !tries(&allowed) => 1,
            _ if has_a_list(record.mode) => 4,
            _ if tries(&if_reached) => 3,
            _ => 2,
        }
    };
    (0..counts.len()).map(reason).collect()
}
