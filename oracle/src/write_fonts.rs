//! A stand-in for the crate that reads fonts: the types and calls that the compared code uses, and no others,
//! over the bytes of one layout table, with the reading rules of `docs/FORMATS.md`.
//!
//! A part is absent when its offset is 0, unreadable when its fields or its counted list pass the table's end
//! or its format is not known, and there otherwise. Every slice of bytes handed around here runs to the end of
//! the table, so "past the slice" and "past the table's end" are the same.

pub mod types {
    /// A type whose values all take the same number of bytes.
    pub trait FixedSize {
        const RAW_BYTE_LEN: usize;
    }

    /// A number, tag, version or offset, written big-endian.
    pub trait Scalar: Copy {
        type Raw: Copy + AsRef<[u8]>;
        fn to_raw(self) -> Self::Raw;
        fn read(bytes: &[u8]) -> Option<Self>;
    }

    impl<T: Scalar> FixedSize for T {
        const RAW_BYTE_LEN: usize = size_of::<T::Raw>();
    }

    /// A scalar as it lies in the table.
    #[derive(Clone, Copy)]
    pub struct BigEndian<T: Scalar>(T::Raw);

    impl<T: Scalar> BigEndian<T> {
        pub fn new(value: T) -> Self {
            Self(value.to_raw())
        }

        pub fn get(&self) -> T {
            T::read(self.0.as_ref()).expect("a scalar's raw bytes always hold it")
        }
    }

    macro_rules! number {
        ($name:ty, $length:literal) => {
            impl Scalar for $name {
                type Raw = [u8; $length];

                fn to_raw(self) -> Self::Raw {
                    self.to_be_bytes()
                }

                fn read(bytes: &[u8]) -> Option<Self> {
                    bytes.try_into().ok().map(Self::from_be_bytes)
                }
            }
        };
    }

    macro_rules! wrapped_number {
        ($name:ident, $number:ty) => {
            #[derive(Clone, Copy, Debug, Default, PartialEq, Eq, PartialOrd, Ord, Hash)]
            pub struct $name($number);

            impl Scalar for $name {
                type Raw = <$number as Scalar>::Raw;

                fn to_raw(self) -> Self::Raw {
                    self.0.to_raw()
                }

                fn read(bytes: &[u8]) -> Option<Self> {
                    <$number>::read(bytes).map(Self)
                }
            }
        };
    }

    number!(u16, 2);
    number!(u32, 4);
    wrapped_number!(Tag, u32);
    wrapped_number!(MajorMinor, u32);
    wrapped_number!(Offset16, u16);
    wrapped_number!(Offset32, u32);

    impl Tag {
        pub const fn new(bytes: &[u8; 4]) -> Self {
            Self(u32::from_be_bytes(*bytes))
        }

        pub const fn from_u32(number: u32) -> Self {
            Self(number)
        }

        pub const fn to_be_bytes(self) -> [u8; 4] {
            self.0.to_be_bytes()
        }
    }

    impl Offset16 {
        pub fn is_null(self) -> bool {
            self.0 == 0
        }

        pub fn to_u32(self) -> u32 {
            self.0.into()
        }
    }

    impl Offset32 {
        pub fn is_null(self) -> bool {
            self.0 == 0
        }

        pub fn to_u32(self) -> u32 {
            self.0
        }
    }

    /// Only the largest value is asked for: the lists have no 24-bit offsets.
    #[derive(Clone, Copy)]
    pub struct Uint24(u32);

    impl Uint24 {
        pub const MAX: Self = Self(0xFF_FFFF);

        pub const fn to_u32(self) -> u32 {
            self.0
        }
    }
}

pub mod read {
    use crate::types::{FixedSize, Offset16, Offset32, Scalar, Tag};
    use std::marker::PhantomData;

    #[derive(Clone, Copy, Debug, PartialEq, Eq)]
    pub enum ReadError {
        NullOffset,
        OutOfBounds,
        UnknownFormat,
    }

    /// The bytes from the start of a part to the end of the table.
    #[derive(Clone, Copy)]
    pub struct FontData<'a>(&'a [u8]);

    impl<'a> FontData<'a> {
        pub fn new(bytes: &'a [u8]) -> Self {
            Self(bytes)
        }

        /// The first `length` bytes of the part.
        fn first(self, length: usize) -> Result<&'a [u8], ReadError> {
            self.0.get(..length).ok_or(ReadError::OutOfBounds)
        }

        fn scalar<T: Scalar>(self, position: usize) -> Result<T, ReadError> {
            self.0
                .get(position..position + T::RAW_BYTE_LEN)
                .and_then(T::read)
                .ok_or(ReadError::OutOfBounds)
        }

        fn list<R: Record>(self, position: usize, count: usize) -> Result<Vec<R>, ReadError> {
            let end = position + count * R::LENGTH;
            let bytes = self.0.get(position..end).ok_or(ReadError::OutOfBounds)?;
            Ok(bytes
                .chunks_exact(R::LENGTH)
                .map(|record| R::read(FontData(record)))
                .collect())
        }

        /// The part that `offset`, counted from the start of this one, leads to.
        fn part<T: FontRead<'a>>(self, offset: u32, args: T::Args) -> Result<T, ReadError> {
            if offset == 0 {
                return Err(ReadError::NullOffset);
            }
            let bytes = self
                .0
                .get(offset as usize..)
                .ok_or(ReadError::OutOfBounds)?;
            T::read_with_args(FontData(bytes), args)
        }

        fn part_unless_absent<T: FontRead<'a>>(
            self,
            offset: u32,
            args: T::Args,
        ) -> Option<Result<T, ReadError>> {
            (offset != 0).then(|| self.part(offset, args))
        }
    }

    pub trait FontRead<'a>: Sized + 'a {
        type Args;
        fn read_with_args(data: FontData<'a>, args: Self::Args) -> Result<Self, ReadError>;
    }

    /// One entry of a counted list. Its bytes are known to be there.
    trait Record: Sized {
        const LENGTH: usize;
        fn read(entry: FontData) -> Self;
    }

    fn field<T: Scalar>(entry: FontData, position: usize) -> T {
        entry
            .scalar(position)
            .expect("an entry's bytes were checked with its list")
    }

    impl Record for crate::types::BigEndian<u16> {
        const LENGTH: usize = 2;
        fn read(entry: FontData) -> Self {
            Self::new(field(entry, 0))
        }
    }

    impl Record for Offset32 {
        const LENGTH: usize = 4;
        fn read(entry: FontData) -> Self {
            field(entry, 0)
        }
    }

    /// A part whose bytes are copied whole.
    pub trait MinByteRange<'a> {
        fn min_table_bytes(&self) -> &'a [u8];
    }

    pub trait TopLevelTable {
        const TAG: Tag;
    }

    pub trait Offset: Copy + 'static {
        fn distance(self) -> u32;
    }

    impl Offset for Offset16 {
        fn distance(self) -> u32 {
            self.to_u32()
        }
    }

    impl Offset for Offset32 {
        fn distance(self) -> u32 {
            self.to_u32()
        }
    }

    /// A list of offsets of parts of one kind. An offset of 0, and a place past the end, is an error.
    pub struct ArrayOfOffsets<'a, T: FontRead<'a>, O> {
        offsets: Vec<O>,
        data: FontData<'a>,
        args: T::Args,
        part: PhantomData<T>,
    }

    impl<'a, T: FontRead<'a>, O> ArrayOfOffsets<'a, T, O> {
        fn new(offsets: Vec<O>, data: FontData<'a>, args: T::Args) -> Self {
            Self {
                offsets,
                data,
                args,
                part: PhantomData,
            }
        }
    }

    impl<'a, T, O> ArrayOfOffsets<'a, T, O>
    where
        O: Scalar + Offset,
        T: FontRead<'a>,
        T::Args: Copy + 'static,
    {
        pub fn get(&self, place: usize) -> Result<T, ReadError> {
            let offset = self.offsets.get(place).ok_or(ReadError::OutOfBounds)?;
            self.data.part(offset.distance(), self.args)
        }

        pub fn iter(&self) -> impl Iterator<Item = Result<T, ReadError>> + 'a {
            let (data, args) = (self.data, self.args);
            let offsets = self.offsets.clone().into_iter();
            offsets.map(move |offset| data.part(offset.distance(), args))
        }
    }

    /// The same, where an offset of 0 is no error. None of the lists has one.
    pub struct ArrayOfNullableOffsets<'a, T: FontRead<'a>, O>(ArrayOfOffsets<'a, T, O>);

    impl<'a, T, O> ArrayOfNullableOffsets<'a, T, O>
    where
        O: Scalar + Offset,
        T: FontRead<'a>,
        T::Args: Copy + 'static,
    {
        pub fn get(&self, place: usize) -> Option<Result<T, ReadError>> {
            match self.0.get(place) {
                Err(ReadError::NullOffset) => None,
                other => Some(other),
            }
        }
    }

    pub mod collections {
        use crate::types::Tag;
        use std::collections::BTreeSet;

        /// The keys of a set, in their order.
        pub trait Domain: Copy + Ord {}
        impl Domain for u16 {}
        impl Domain for Tag {}

        #[derive(Clone)]
        pub struct IntSet<T>(BTreeSet<T>);

        impl<T> Default for IntSet<T> {
            fn default() -> Self {
                Self(BTreeSet::new())
            }
        }

        impl<T: Domain> IntSet<T> {
            pub fn empty() -> Self {
                Self::default()
            }

            pub fn insert(&mut self, key: T) -> bool {
                self.0.insert(key)
            }

            pub fn extend_unsorted(&mut self, keys: impl IntoIterator<Item = T>) {
                self.0.extend(keys)
            }

            pub fn contains(&self, key: T) -> bool {
                self.0.contains(&key)
            }

            pub fn is_empty(&self) -> bool {
                self.0.is_empty()
            }

            pub fn len(&self) -> usize {
                self.0.len()
            }

            pub fn iter(&self) -> impl Iterator<Item = T> + '_ {
                self.0.iter().copied()
            }
        }

        impl<T: Domain> FromIterator<T> for IntSet<T> {
            fn from_iter<I: IntoIterator<Item = T>>(keys: I) -> Self {
                Self(keys.into_iter().collect())
            }
        }
    }

    pub mod tables {
        pub mod gsub {
            use super::layout::{FeatureList, FeatureVariations, ScriptList};
            use crate::read::{FontData, ReadError, TopLevelTable};
            use crate::types::Tag;

            /// A layout table's header. The header of a GPOS table is read by it too: they have the same fields.
            pub struct Gsub<'a> {
                data: FontData<'a>,
                script_list_offset: u16,
                feature_list_offset: u16,
                feature_variations_offset: u32,
            }

            impl TopLevelTable for Gsub<'_> {
                const TAG: Tag = Tag::new(b"GSUB");
            }

            impl<'a> Gsub<'a> {
                pub fn read(data: FontData<'a>) -> Result<Self, ReadError> {
                    let major: u16 = data.scalar(0)?;
                    let minor: u16 = data.scalar(2)?;
                    data.first(if minor == 0 { 10 } else { 14 })?;
                    if major != 1 {
                        return Err(ReadError::UnknownFormat);
                    }
                    Ok(Self {
                        data,
                        script_list_offset: data.scalar(4)?,
                        feature_list_offset: data.scalar(6)?,
                        feature_variations_offset: if minor == 0 { 0 } else { data.scalar(10)? },
                    })
                }

                pub fn script_list(&self) -> Result<ScriptList<'a>, ReadError> {
                    self.data.part(self.script_list_offset.into(), ())
                }

                pub fn feature_list(&self) -> Result<FeatureList<'a>, ReadError> {
                    self.data.part(self.feature_list_offset.into(), ())
                }

                pub fn feature_variations(
                    &self,
                ) -> Option<Result<FeatureVariations<'a>, ReadError>> {
                    self.data
                        .part_unless_absent(self.feature_variations_offset, ())
                }
            }
        }

        pub mod gpos {
            use crate::read::TopLevelTable;
            use crate::types::Tag;

            pub struct Gpos;

            impl TopLevelTable for Gpos {
                const TAG: Tag = Tag::new(b"GPOS");
            }
        }

        pub mod layout {
            use crate::read::{
                field, ArrayOfOffsets, FontData, FontRead, MinByteRange, ReadError, Record,
            };
            use crate::types::{BigEndian, MajorMinor, Offset16, Offset32, Tag};

            pub struct ScriptList<'a> {
                data: FontData<'a>,
                records: Vec<ScriptRecord>,
            }

            impl<'a> FontRead<'a> for ScriptList<'a> {
                type Args = ();
                fn read_with_args(data: FontData<'a>, _: ()) -> Result<Self, ReadError> {
                    let count: u16 = data.scalar(0)?;
                    let records = data.list(2, count.into())?;
                    Ok(Self { data, records })
                }
            }

            impl<'a> ScriptList<'a> {
                pub fn offset_data(&self) -> FontData<'a> {
                    self.data
                }

                pub fn script_records(&self) -> &[ScriptRecord] {
                    &self.records
                }
            }

            pub struct ScriptRecord {
                tag: Tag,
                offset: Offset16,
            }

            impl Record for ScriptRecord {
                const LENGTH: usize = 6;
                fn read(entry: FontData) -> Self {
                    Self {
                        tag: field(entry, 0),
                        offset: field(entry, 4),
                    }
                }
            }

            impl ScriptRecord {
                pub fn script_tag(&self) -> Tag {
                    self.tag
                }

                pub fn script_offset(&self) -> Offset16 {
                    self.offset
                }

                pub fn script<'a>(&self, list: FontData<'a>) -> Result<Script<'a>, ReadError> {
                    list.part(self.offset.to_u32(), ())
                }
            }

            pub struct Script<'a> {
                data: FontData<'a>,
                default_offset: Offset16,
                records: Vec<LangSysRecord>,
            }

            impl<'a> FontRead<'a> for Script<'a> {
                type Args = ();
                fn read_with_args(data: FontData<'a>, _: ()) -> Result<Self, ReadError> {
                    let count: u16 = data.scalar(2)?;
                    Ok(Self {
                        data,
                        default_offset: data.scalar(0)?,
                        records: data.list(4, count.into())?,
                    })
                }
            }

            impl<'a> Script<'a> {
                pub fn offset_data(&self) -> FontData<'a> {
                    self.data
                }

                pub fn default_lang_sys_offset(&self) -> Offset16 {
                    self.default_offset
                }

                pub fn default_lang_sys(&self) -> Option<Result<LangSys<'a>, ReadError>> {
                    self.data
                        .part_unless_absent(self.default_offset.to_u32(), ())
                }

                pub fn lang_sys_count(&self) -> u16 {
                    self.records.len() as u16
                }

                pub fn lang_sys_records(&self) -> &[LangSysRecord] {
                    &self.records
                }
            }

            pub struct LangSysRecord {
                tag: Tag,
                offset: Offset16,
            }

            impl Record for LangSysRecord {
                const LENGTH: usize = 6;
                fn read(entry: FontData) -> Self {
                    Self {
                        tag: field(entry, 0),
                        offset: field(entry, 4),
                    }
                }
            }

            impl LangSysRecord {
                pub fn lang_sys_tag(&self) -> Tag {
                    self.tag
                }

                pub fn lang_sys_offset(&self) -> Offset16 {
                    self.offset
                }

                pub fn lang_sys<'a>(&self, script: FontData<'a>) -> Result<LangSys<'a>, ReadError> {
                    script.part(self.offset.to_u32(), ())
                }
            }

            pub struct LangSys<'a> {
                required: u16,
                indices: Vec<BigEndian<u16>>,
                table: std::marker::PhantomData<&'a [u8]>,
            }

            impl<'a> FontRead<'a> for LangSys<'a> {
                type Args = ();
                fn read_with_args(data: FontData<'a>, _: ()) -> Result<Self, ReadError> {
                    let count: u16 = data.scalar(4)?;
                    Ok(Self {
                        required: data.scalar(2)?,
                        indices: data.list(6, count.into())?,
                        table: std::marker::PhantomData,
                    })
                }
            }

            impl LangSys<'_> {
                pub fn required_feature_index(&self) -> u16 {
                    self.required
                }

                pub fn feature_index_count(&self) -> u16 {
                    self.indices.len() as u16
                }

                pub fn feature_indices(&self) -> &[BigEndian<u16>] {
                    &self.indices
                }
            }

            pub struct FeatureList<'a> {
                data: FontData<'a>,
                records: Vec<FeatureRecord>,
            }

            impl<'a> FontRead<'a> for FeatureList<'a> {
                type Args = ();
                fn read_with_args(data: FontData<'a>, _: ()) -> Result<Self, ReadError> {
                    let count: u16 = data.scalar(0)?;
                    let records = data.list(2, count.into())?;
                    Ok(Self { data, records })
                }
            }

            impl<'a> FeatureList<'a> {
                pub fn offset_data(&self) -> FontData<'a> {
                    self.data
                }

                pub fn feature_records(&self) -> &[FeatureRecord] {
                    &self.records
                }
            }

            pub struct FeatureRecord {
                tag: Tag,
                offset: Offset16,
            }

            impl Record for FeatureRecord {
                const LENGTH: usize = 6;
                fn read(entry: FontData) -> Self {
                    Self {
                        tag: field(entry, 0),
                        offset: field(entry, 4),
                    }
                }
            }

            impl FeatureRecord {
                pub fn feature_tag(&self) -> Tag {
                    self.tag
                }

                pub fn feature_offset(&self) -> Offset16 {
                    self.offset
                }

                pub fn feature<'a>(&self, list: FontData<'a>) -> Result<Feature<'a>, ReadError> {
                    list.part(self.offset.to_u32(), Some(self.tag))
                }
            }

            pub struct Feature<'a> {
                data: FontData<'a>,
                /// The tag by which the parameters are read. An alternate feature has none.
                tag: Option<Tag>,
                params_offset: Offset16,
                lookups: Vec<BigEndian<u16>>,
            }

            impl<'a> FontRead<'a> for Feature<'a> {
                type Args = Option<Tag>;
                fn read_with_args(data: FontData<'a>, tag: Option<Tag>) -> Result<Self, ReadError> {
                    let count: u16 = data.scalar(2)?;
                    Ok(Self {
                        data,
                        tag,
                        params_offset: data.scalar(0)?,
                        lookups: data.list(4, count.into())?,
                    })
                }
            }

            impl<'a> Feature<'a> {
                pub fn feature_params_offset(&self) -> Offset16 {
                    self.params_offset
                }

                pub fn feature_params(&self) -> Option<Result<FeatureParams<'a>, ReadError>> {
                    self.data
                        .part_unless_absent(self.params_offset.to_u32(), self.tag)
                }

                pub fn lookup_list_indices(&self) -> &[BigEndian<u16>] {
                    &self.lookups
                }
            }

            pub enum FeatureParams<'a> {
                StylisticSet(StylisticSetParams<'a>),
                Size(SizeParams<'a>),
                CharacterVariant(CharacterVariantParams<'a>),
            }

            pub struct StylisticSetParams<'a>(&'a [u8]);
            pub struct SizeParams<'a>(&'a [u8]);
            pub struct CharacterVariantParams<'a>(&'a [u8]);

            impl<'a> FontRead<'a> for FeatureParams<'a> {
                type Args = Option<Tag>;
                fn read_with_args(data: FontData<'a>, tag: Option<Tag>) -> Result<Self, ReadError> {
                    match tag.map(Tag::to_be_bytes) {
                        Some([b's', b'i', b'z', b'e']) => {
                            Ok(Self::Size(SizeParams(data.first(10)?)))
                        }
                        Some([b's', b's', _, _]) => {
                            Ok(Self::StylisticSet(StylisticSetParams(data.first(4)?)))
                        }
                        Some([b'c', b'v', _, _]) => {
                            let characters: u16 = data.scalar(12)?;
                            let length = 14 + 3 * usize::from(characters);
                            Ok(Self::CharacterVariant(CharacterVariantParams(
                                data.first(length)?,
                            )))
                        }
                        _ => Err(ReadError::UnknownFormat),
                    }
                }
            }

            macro_rules! copied_whole {
                ($($part:ident),*) => {
                    $(impl<'a> MinByteRange<'a> for $part<'a> {
                        fn min_table_bytes(&self) -> &'a [u8] {
                            self.0
                        }
                    })*
                };
            }

            copied_whole!(
                StylisticSetParams,
                SizeParams,
                CharacterVariantParams,
                ConditionFormat1
            );

            pub struct FeatureVariations<'a> {
                data: FontData<'a>,
                version: MajorMinor,
                records: Vec<FeatureVariationRecord>,
            }

            impl<'a> FontRead<'a> for FeatureVariations<'a> {
                type Args = ();
                fn read_with_args(data: FontData<'a>, _: ()) -> Result<Self, ReadError> {
                    let count: u32 = data.scalar(4)?;
                    Ok(Self {
                        data,
                        version: data.scalar(0)?,
                        records: data.list(8, count as usize)?,
                    })
                }
            }

            impl<'a> FeatureVariations<'a> {
                pub fn offset_data(&self) -> FontData<'a> {
                    self.data
                }

                pub fn version(&self) -> MajorMinor {
                    self.version
                }

                pub fn feature_variation_record_count(&self) -> u32 {
                    self.records.len() as u32
                }

                pub fn feature_variation_records(&self) -> &[FeatureVariationRecord] {
                    &self.records
                }
            }

            pub struct FeatureVariationRecord {
                condition_set_offset: Offset32,
                substitution_offset: Offset32,
            }

            impl Record for FeatureVariationRecord {
                const LENGTH: usize = 8;
                fn read(entry: FontData) -> Self {
                    Self {
                        condition_set_offset: field(entry, 0),
                        substitution_offset: field(entry, 4),
                    }
                }
            }

            impl FeatureVariationRecord {
                pub fn condition_set<'a>(
                    &self,
                    variations: FontData<'a>,
                ) -> Option<Result<ConditionSet<'a>, ReadError>> {
                    variations.part_unless_absent(self.condition_set_offset.to_u32(), ())
                }

                pub fn feature_table_substitution<'a>(
                    &self,
                    variations: FontData<'a>,
                ) -> Option<Result<FeatureTableSubstitution<'a>, ReadError>> {
                    variations.part_unless_absent(self.substitution_offset.to_u32(), ())
                }
            }

            pub struct ConditionSet<'a> {
                data: FontData<'a>,
                offsets: Vec<Offset32>,
            }

            impl<'a> FontRead<'a> for ConditionSet<'a> {
                type Args = ();
                fn read_with_args(data: FontData<'a>, _: ()) -> Result<Self, ReadError> {
                    let count: u16 = data.scalar(0)?;
                    let offsets = data.list(2, count.into())?;
                    Ok(Self { data, offsets })
                }
            }

            impl<'a> ConditionSet<'a> {
                pub fn condition_count(&self) -> u16 {
                    self.offsets.len() as u16
                }

                pub fn conditions(&self) -> ArrayOfOffsets<'a, Condition<'a>, Offset32> {
                    ArrayOfOffsets::new(self.offsets.clone(), self.data, ())
                }
            }

            pub enum Condition<'a> {
                Format1AxisRange(ConditionFormat1<'a>),
                /// Formats 2 to 5, whatever follows the format field.
                Other,
            }

            pub struct ConditionFormat1<'a>(&'a [u8]);

            impl<'a> FontRead<'a> for Condition<'a> {
                type Args = ();
                fn read_with_args(data: FontData<'a>, _: ()) -> Result<Self, ReadError> {
                    match data.scalar::<u16>(0)? {
                        1 => Ok(Self::Format1AxisRange(ConditionFormat1(data.first(8)?))),
                        2..=5 => Ok(Self::Other),
                        _ => Err(ReadError::UnknownFormat),
                    }
                }
            }

            pub struct FeatureTableSubstitution<'a> {
                data: FontData<'a>,
                version: MajorMinor,
                records: Vec<FeatureTableSubstitutionRecord>,
            }

            impl<'a> FontRead<'a> for FeatureTableSubstitution<'a> {
                type Args = ();
                fn read_with_args(data: FontData<'a>, _: ()) -> Result<Self, ReadError> {
                    let count: u16 = data.scalar(4)?;
                    Ok(Self {
                        data,
                        version: data.scalar(0)?,
                        records: data.list(6, count.into())?,
                    })
                }
            }

            impl<'a> FeatureTableSubstitution<'a> {
                pub fn offset_data(&self) -> FontData<'a> {
                    self.data
                }

                pub fn version(&self) -> MajorMinor {
                    self.version
                }

                pub fn substitutions(&self) -> &[FeatureTableSubstitutionRecord] {
                    &self.records
                }
            }

            pub struct FeatureTableSubstitutionRecord {
                feature_index: u16,
                alternate_offset: Offset32,
            }

            impl Record for FeatureTableSubstitutionRecord {
                const LENGTH: usize = 6;
                fn read(entry: FontData) -> Self {
                    Self {
                        feature_index: field(entry, 0),
                        alternate_offset: field(entry, 2),
                    }
                }
            }

            impl FeatureTableSubstitutionRecord {
                pub fn feature_index(&self) -> u16 {
                    self.feature_index
                }

                pub fn alternate_feature_offset(&self) -> Offset32 {
                    self.alternate_offset
                }

                pub fn alternate_feature<'a>(
                    &self,
                    substitution: FontData<'a>,
                ) -> Result<Feature<'a>, ReadError> {
                    substitution.part(self.alternate_offset.to_u32(), None)
                }
            }
        }
    }
}
