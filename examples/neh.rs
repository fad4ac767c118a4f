// NEH's order of three jobs on two machines, in Rust over libpfs.
#[allow(dead_code)]
mod pfs;

fn main() {
    for times in [vec![3, 2, 2, 5, 4, 1], vec![3, 2, 2, 5, 4]] {
        match pfs::Instance::new(&times, 3, 2).and_then(|mut instance| instance.neh()) {
            Ok((order, makespan)) => println!("order {order:?}, makespan {makespan}"),
            Err(why) => println!("{why}"),
        }
    }
}
