//! As much of `serde` as the original's signatures name. Nothing is ever serialized here, so no
//! type implements the traits but `Vec`, of which `deserialize_map` asks it.

pub use serde_derive::{Deserialize, Serialize};

pub trait Serialize {}

pub trait Serializer: Sized {
    type Ok;
    type Error;
    type SerializeSeq: ser::SerializeSeq<Ok = Self::Ok, Error = Self::Error>;
    type SerializeMap: ser::SerializeMap<Ok = Self::Ok, Error = Self::Error>;

    fn serialize_seq(self, length: Option<usize>) -> Result<Self::SerializeSeq, Self::Error>;
    fn serialize_map(self, length: Option<usize>) -> Result<Self::SerializeMap, Self::Error>;
}

pub trait Deserializer<'de>: Sized {
    type Error;
}

pub trait Deserialize<'de>: Sized {
    fn deserialize<D: Deserializer<'de>>(deserializer: D) -> Result<Self, D::Error>;
}

impl<'de, T> Deserialize<'de> for Vec<T> {
    fn deserialize<D: Deserializer<'de>>(_: D) -> Result<Self, D::Error> {
        unimplemented!("the judge deserializes nothing")
    }
}

pub mod ser {
    pub trait SerializeSeq {
        type Ok;
        type Error;

        fn serialize_element<T: ?Sized>(&mut self, value: &T) -> Result<(), Self::Error>;
        fn end(self) -> Result<Self::Ok, Self::Error>;
    }

    pub trait SerializeMap {
        type Ok;
        type Error;

        fn serialize_entry<K: ?Sized, V: ?Sized>(
            &mut self,
            key: &K,
            value: &V,
        ) -> Result<(), Self::Error>;
        fn end(self) -> Result<Self::Ok, Self::Error>;
    }
}

pub mod de {
    pub trait DeserializeOwned: for<'de> super::Deserialize<'de> {}
}
