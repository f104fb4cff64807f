//! Sizes, counts and places in the image, each named here and nowhere else.

/// The version that the header carries.
pub const VERSION: u16 = 3;

/// Views are 1 to 32.
pub const VIEWS: usize = 32;
/// Servers are 1 to 32.
pub const SERVERS: usize = 32;
/// Clients are 1 to 16; they are also the largest writer of an entry.
pub const CLIENTS: usize = 16;
/// Message records in the image, message 0 included.
pub const MESSAGES: usize = 1024;

/// The largest view, server, client and message number.
pub const LAST_VIEW: u8 = VIEWS as u8;
pub const LAST_SERVER: u8 = SERVERS as u8;
pub const LAST_CLIENT: u8 = CLIENTS as u8;
pub const LAST_MESSAGE: u16 = MESSAGES as u16 - 1;

/// Bytes of each record.
pub const ENTRY_SIZE: usize = 12;
pub const HEADER_SIZE: usize = 16;
pub const VIEW_SIZE: usize = 8;
pub const SERVER_SIZE: usize = 20;
pub const CLIENT_SIZE: usize = 20;
pub const MESSAGE_SIZE: usize = 20;
pub const STEP_SIZE: usize = 12;

/// The administrator's record: the header from the newest view to the END
/// number.
pub const ADMINISTRATOR_AT: usize = 4;
pub const ADMINISTRATOR_SIZE: usize = 4;

/// What is asked of a single machine: four bytes, then a message, an entry or a
/// view; of a client a flag more.
pub const ASKED_SIZE: usize = 4;
pub const SERVER_CALL_SIZE: usize = ASKED_SIZE + MESSAGE_SIZE;
pub const CLIENT_CALL_SIZE: usize = ASKED_SIZE + ENTRY_SIZE + 1;
pub const ADMINISTRATOR_CALL_SIZE: usize = ASKED_SIZE + VIEW_SIZE;

/// Where each part of the image begins.
pub const VIEWS_AT: usize = HEADER_SIZE;
/// One byte a view: the number of its faulty key holders.
pub const HOLDERS_AT: usize = VIEWS_AT + VIEWS * VIEW_SIZE;
pub const SERVERS_AT: usize = HOLDERS_AT + VIEWS;
pub const CLIENTS_AT: usize = SERVERS_AT + SERVERS * SERVER_SIZE;
pub const MESSAGES_AT: usize = CLIENTS_AT + CLIENTS * CLIENT_SIZE;

/// Bytes of a whole image.
pub const IMAGE_SIZE: usize = MESSAGES_AT + MESSAGES * MESSAGE_SIZE;

const _: () = assert!(IMAGE_SIZE == 21_744);
