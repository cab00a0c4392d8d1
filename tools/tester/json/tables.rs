//! The tables as a JSON object: every entry in use, and the pools.

use shared::calls::Handle;
use shared::decode::decode;
use shared::rights::names;
use shared::tables::{Capa, Domain, Kind, Pool, Record, Region, Tables};

use super::calls::{handle, update};
use super::{Json, Members};
use crate::faults;

/// What is wrong with the words, or null; the tables, or null where the words are not those of tables; the words.
pub fn object(list: usize, words: &[u64]) -> Json {
    Json::Object(vec![
        ("list", list.into()),
        ("fault", faults::fault(words).into()),
        ("tables", decode(words).as_ref().map(tables).into()),
        ("words", words.to_vec().into()),
    ])
}

fn tables(t: &Tables) -> Json {
    let z = &t.sizes;
    let sizes = [("domains", z.domains), ("slots", z.slots), ("regions", z.regions), ("records", z.records), ("updates", z.updates)];
    let places = t.places.iter().map(|place| place.as_ref().map(update).into()).collect();
    Json::Object(vec![
        ("sizes", Json::Object(sizes.map(|(name, n)| (name, n.into())).into())),
        ("domain_pool", pool(&t.domain_pool)),
        ("region_pool", pool(&t.region_pool)),
        ("record_pool", pool(&t.record_pool)),
        ("domains", entries(&t.domains, &t.domain_pool, domain)),
        ("regions", entries(&t.regions, &t.region_pool, region)),
        ("records", entries(&t.records, &t.record_pool, record)),
        ("ring", Json::Object(vec![("read", t.read.into()), ("write", t.write.into()), ("places", Json::List(places))])),
    ])
}

fn pool(p: &Pool) -> Json {
    Json::Object(vec![("head", p.head.into()), ("count", p.count.into()), ("free", p.free().into()), ("generations", p.gens.clone().into())])
}

/// The entries in use, each with its slot and generation before its own members.
fn entries<T>(entries: &[Option<T>], pool: &Pool, members: impl Fn(&T) -> Members) -> Json {
    let used = (0..).zip(entries).zip(&pool.gens).filter_map(|((slot, entry), gen)| Some((slot, *gen, entry.as_ref()?)));
    let object = |(slot, gen, entry): (u64, u64, &T)| {
        let own: Members = vec![("slot", slot.into()), ("generation", gen.into())];
        Json::Object(own.into_iter().chain(members(entry)).collect())
    };
    Json::List(used.map(object).collect())
}

fn domain(x: &Domain) -> Members {
    let held = (0..).zip(&x.held).filter_map(|(l, c)| Some(capa(l, c.as_ref()?)));
    vec![
        ("manager", x.manager.into()),
        ("cores", x.cores.into()),
        ("interface", x.interface.into()),
        ("frozen", x.frozen.into()),
        ("first_record", x.tracker.into()),
        ("free_locals", x.list.free().into()),
        ("locals", Json::List(held.collect())),
    ]
}

fn capa(local: u64, capa: &Capa) -> Json {
    let (kind, named): (&str, Option<Handle>) = match *capa {
        Capa::None => ("None", None),
        Capa::Region(h) => ("Region", Some(h)),
        Capa::RegionRevoke(h) => ("RegionRevoke", Some(h)),
        Capa::Management(h) => ("Management", Some(h)),
        Capa::Channel(h) => ("Channel", Some(h)),
    };
    Json::Object(vec![("local", local.into()), ("kind", kind.into()), ("handle", named.map(handle).into())])
}

fn region(g: &Region) -> Members {
    let (kind, parent) = match g.kind {
        Kind::Root => ("root", None),
        Kind::Alias(p) => ("alias", Some(p)),
        Kind::Carve(p) => ("carve", Some(p)),
    };
    vec![
        ("kind", kind.into()),
        ("owner", g.owner.into()),
        ("parent", parent.into()),
        ("start", g.start.into()),
        ("end", g.end.into()),
        ("rights", g.rights.into()),
        ("right_names", names(g.rights).into()),
        ("first_child", g.first_child.into()),
        ("next_sibling", g.next_sibling.into()),
        ("hash", g.hash.map(|hash| hash.to_string()).into()),
    ]
}

fn record(q: &Record) -> Members {
    let [reach, read, write, exec, superv, uncacheable] = q.counts;
    vec![
        ("start", q.start.into()),
        ("end", q.end.into()),
        ("reach", reach.into()),
        ("READ", read.into()),
        ("WRITE", write.into()),
        ("EXEC", exec.into()),
        ("SUPER", superv.into()),
        ("UNCACHEABLE", uncacheable.into()),
        ("next", q.next.into()),
    ]
}
