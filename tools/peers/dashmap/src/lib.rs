//! dashmap behind C functions: `plain_dash_..` as it comes, `fast_dash_..` with 512 shards and the key itself as its hash.
//!
//! A map is made by `.._new`, is shared by threads, and is given back by `.._free` when no thread has it any more.

use dashmap::DashMap;
use std::collections::hash_map::RandomState;
use std::hash::{BuildHasherDefault, Hasher};

/// The hash of a key that is spread already: the key.
#[derive(Default)]
pub struct Same(u64);

impl Hasher for Same {
    fn finish(&self) -> u64 {
        self.0
    }

    fn write(&mut self, _: &[u8]) {
        unreachable!("keys are words")
    }

    fn write_u64(&mut self, key: u64) {
        self.0 = key;
    }
}

const SHARDS: usize = 512;

macro_rules! exports {
    ($hash:ty, $made:expr, $new:ident, $get:ident, $upsert:ident, $add:ident, $free:ident) => {
        #[no_mangle]
        pub extern "C" fn $new(keys: usize) -> *mut DashMap<u64, u64, $hash> {
            let made: fn(usize) -> DashMap<u64, u64, $hash> = $made;
            Box::into_raw(Box::new(made(keys)))
        }

        #[no_mangle]
        pub extern "C" fn $get(map: &DashMap<u64, u64, $hash>, key: u64, value: &mut u64) -> i32 {
            match map.get(&key) {
                Some(found) => {
                    *value = *found;
                    1
                }
                None => 0,
            }
        }

        #[no_mangle]
        pub extern "C" fn $upsert(map: &DashMap<u64, u64, $hash>, key: u64, value: u64) {
            map.insert(key, value);
        }

        #[no_mangle]
        pub extern "C" fn $add(map: &DashMap<u64, u64, $hash>, key: u64, number: u64) {
            *map.entry(key).or_insert(0) += number;
        }

        /// # Safety
        /// `map` is from `new`, and nobody uses it any more.
        #[no_mangle]
        pub unsafe extern "C" fn $free(map: *mut DashMap<u64, u64, $hash>) {
            drop(Box::from_raw(map));
        }
    };
}

exports!(RandomState, DashMap::with_capacity, plain_dash_new, plain_dash_get, plain_dash_upsert, plain_dash_add, plain_dash_free);
exports!(
    BuildHasherDefault<Same>,
    |keys| DashMap::with_capacity_and_hasher_and_shard_amount(keys, BuildHasherDefault::default(), SHARDS),
    fast_dash_new,
    fast_dash_get,
    fast_dash_upsert,
    fast_dash_add,
    fast_dash_free
);
