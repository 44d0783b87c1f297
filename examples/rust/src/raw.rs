//! The records and the calls of include/eallunsa.h, as they are.
#![allow(missing_docs)]

pub const MOST_ITEMS: usize = 63;
pub const MOST_LINKS: usize = 255;
pub const FIRST_ENTRY: u16 = 11;

macro_rules! records {
    ($($name:ident { $($field:ident: $kind:ty,)* })*) => {
        $(#[repr(C)]
        #[derive(Clone, Copy)]
        pub struct $name { $(pub $field: $kind,)* })*
    };
}

records! {
    Refusal { number: u8, first: usize, second: usize, }
    Version { major: u16, minor: u16, patch: u16, }
    Range { start: u32, length: u32, }
    Span { start: usize, length: usize, }
    Header {
        section_syntax_indicator: u8,
        private_indicator: u8,
        reserved_b1: u16,
        table_id_extension: u16,
        reserved_b5: u16,
        version_number: u16,
        current_next_indicator: u8,
        section_number: u8,
        last_section_number: u8,
    }
    RctHeader { section: Header, year_offset: u16, }
    Service {
        inline_service: u8,
        dvb_service_triplet_id: u16,
        reserved_inline_service: u16,
        transport_stream_id: u16,
        original_network_id: u16,
        service_id: u16,
    }
    Identifier { identifier_type: u8, component: u8, id: u16, }
    Windows { present: u8, early_start_window: u16, late_end_window: u16, }
    Locator {
        scheduled_time_reliability: u8,
        reserved: u16,
        start_date: u16,
        service: Service,
        start_time: u16,
        duration: u16,
        identifier: Identifier,
        windows: Windows,
    }
    Fields {
        reserved_link_info_length: u16,
        link_type: u16,
        reserved_link_type: u16,
        how_related: u16,
        term_id: u16,
        group_id: u16,
        precedence: u16,
        has_media_uri: u8,
        media_uri: Range,
        has_dvb_binary_locator: u8,
        dvb_binary_locator: Locator,
        reserved_number_items: u16,
        number_items: usize,
        default_icon_flag: u8,
        icon_id: u16,
        descriptors: Range,
    }
    Item { language_code: [u8; 3], promotional_text: Range, }
    Link { fields: Fields, items: [Item; MOST_ITEMS], }
    Set { words: [u64; 4], }
    Index { uri: Set, locator: Set, icon: Set, places: [u16; MOST_LINKS], descriptors: u16, }
    Provider {
        reserved_info_length: u16,
        name: Span,
        reserved_descriptors_length: u16,
        descriptors: Span,
        authorities_at: u16,
        end: u16,
    }
    Authority { name: Span, reserved: u16, crid_authority_policy: u16, descriptors: Span, }

    RctAnswer {
        refusal: Refusal,
        total: usize,
        header: RctHeader,
        number_of_links: usize,
        reserved_descriptor_loop_length: u16,
        descriptors: Range,
    }
    LinkAnswer { refusal: Refusal, link: Link, }
    ItemAnswer { refusal: Refusal, item: Item, }
    EntryAnswer { refusal: Refusal, fields: Fields, items_at: u32, next: u16, }
    StepAnswer { refusal: Refusal, item: Item, next: u32, }
    EditAnswer { refusal: Refusal, total: usize, }
    IndexAnswer { refusal: Refusal, index: Index, }
    IndexEditAnswer { refusal: Refusal, total: usize, index: Index, }
    RntAnswer {
        refusal: Refusal,
        total: usize,
        header: Header,
        context_id_type: u8,
        reserved_common_descriptors_length: u16,
        common_descriptors: Span,
        number_of_providers: usize,
    }
    ProviderAnswer { refusal: Refusal, provider: Provider, number_of_authorities: usize, }
    AuthorityAnswer { refusal: Refusal, authority: Authority, }
    ProviderFound { refusal: Refusal, provider: Provider, }
    AuthorityFound { refusal: Refusal, authority: Authority, next: u16, }
}

extern "C" {
    pub fn eallunsa_version() -> Version;
    pub fn eallunsa_crc(s: *const u8, n: usize) -> u32;
    pub fn eallunsa_rct_read(s: *const u8, n: usize) -> RctAnswer;
    pub fn eallunsa_rct_check(s: *const u8, n: usize) -> RctAnswer;
    pub fn eallunsa_rct_link(s: *const u8, n: usize, number: usize) -> LinkAnswer;
    pub fn eallunsa_rct_item(s: *const u8, n: usize, number: usize, item: usize) -> ItemAnswer;
    pub fn eallunsa_rct_entry(payload: *const u8, n: usize, at: u16) -> EntryAnswer;
    pub fn eallunsa_item_from(s: *const u8, n: usize, at: u32) -> StepAnswer;
    pub fn eallunsa_rct_make(
        b: *mut u8,
        room: usize,
        header: RctHeader,
        reserved_descriptor_loop_length: u16,
        text: *const u8,
        text_length: usize,
        descriptors: Range,
    ) -> EditAnswer;
    pub fn eallunsa_rct_append(b: *mut u8, room: usize, text: *const u8, text_length: usize, link: Link) -> EditAnswer;
    pub fn eallunsa_rct_replace(
        b: *mut u8,
        room: usize,
        number: usize,
        text: *const u8,
        text_length: usize,
        link: Link,
    ) -> EditAnswer;
    pub fn eallunsa_rct_index(s: *const u8, n: usize) -> IndexAnswer;
    pub fn eallunsa_index_place(places: *const u16, n: usize, number: usize) -> u16;
    pub fn eallunsa_set_has(set: Set, number: usize) -> u8;
    pub fn eallunsa_set_count(set: Set) -> usize;
    pub fn eallunsa_rct_index_append(
        b: *mut u8,
        room: usize,
        text: *const u8,
        text_length: usize,
        link: Link,
        index: Index,
    ) -> IndexEditAnswer;
    pub fn eallunsa_rct_index_replace(
        b: *mut u8,
        room: usize,
        number: usize,
        text: *const u8,
        text_length: usize,
        link: Link,
        index: Index,
    ) -> IndexEditAnswer;
    pub fn eallunsa_rnt_read(s: *const u8, n: usize) -> RntAnswer;
    pub fn eallunsa_rnt_check(s: *const u8, n: usize) -> RntAnswer;
    pub fn eallunsa_rnt_provider(s: *const u8, n: usize, number: usize) -> ProviderAnswer;
    pub fn eallunsa_rnt_authority(s: *const u8, n: usize, number: usize, authority: usize) -> AuthorityAnswer;
    pub fn eallunsa_rnt_provider_at(s: *const u8, n: usize, end: u16, at: u16) -> ProviderFound;
    pub fn eallunsa_rnt_authority_at(s: *const u8, n: usize, end: u16, at: u16) -> AuthorityFound;
}
