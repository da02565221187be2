//! 01, "Message layout": the objects of a message, and answers 7, 8 and 9.

use crate::bytes::word;

/// The objects that a message can need, each with its header, as they stand in the message.
#[derive(Default)]
pub(crate) struct Objects<'a> {
    pub session: Option<&'a [u8; 16]>,
    pub error_spec: Option<&'a [u8; 12]>,
    pub template: Option<&'a [u8; 12]>,
    pub message_id: Option<&'a [u8; 12]>,
    pub admin_status: Option<&'a [u8; 8]>,
    pub attribute: Option<&'a [u8]>,
    /// One of the six came more than once.
    pub repeated: bool,
}

/// Walks the objects front to back. The first faulty one decides.
pub(crate) fn walk(mut rest: &[u8]) -> Result<Objects<'_>, u8> {
    let mut objects = Objects::default();
    while !rest.is_empty() {
        let (object, behind) = split(rest)?;
        objects.note(object)?;
        rest = behind;
    }
    Ok(objects)
}

/// Takes the first object off, or answers 7.
fn split(rest: &[u8]) -> Result<(&[u8], &[u8]), u8> {
    if rest.len() < 4 {
        return Err(7);
    }
    let length = usize::from(word(rest, 0));
    if length < 4 || !length.is_multiple_of(4) {
        return Err(7);
    }
    rest.split_at_checked(length).ok_or(7)
}

impl<'a> Objects<'a> {
    /// Keeps an object that is in 01's table, lets others go by, or answers 8 or 9.
    fn note(&mut self, object: &'a [u8]) -> Result<(), u8> {
        let came_before = match object[2] {
            1 => self.session.replace(fixed(object, 7)?).is_some(),
            6 => self.error_spec.replace(fixed(object, 1)?).is_some(),
            11 => self.template.replace(fixed(object, 7)?).is_some(),
            23 => self.message_id.replace(fixed(object, 1)?).is_some(),
            196 => self.admin_status.replace(fixed(object, 1)?).is_some(),
            207 => self.attribute.replace(attribute(object)?).is_some(),
            // Skipped unread.
            0 | 3 | 4 | 5 | 12 | 13 | 14 | 19 | 20 | 21 | 24 | 34 | 35 | 36 | 37 => false,
            // Ignored for the top bit; 133, which is skipped, is among them.
            128.. => false,
            _ => return Err(8),
        };
        self.repeated |= came_before;
        Ok(())
    }
}

/// An object of one length, or 9.
fn fixed<const LENGTH: usize>(object: &[u8], c_type: u8) -> Result<&[u8; LENGTH], u8> {
    if object[3] != c_type {
        return Err(9);
    }
    object.try_into().map_err(|_| 9)
}

/// A SESSION_ATTRIBUTE: as long as its name makes it, zeros behind the name. Else 9.
fn attribute(object: &[u8]) -> Result<&[u8], u8> {
    if object[3] != 7 || object.len() < 8 {
        return Err(9);
    }
    let size = usize::from(object[7]);
    if object.len() != 8 + size.next_multiple_of(4) {
        return Err(9);
    }
    if object[8 + size..].iter().any(|&byte| byte != 0) {
        return Err(9);
    }
    Ok(object)
}
