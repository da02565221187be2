//! A8: late messages. Per customer, the last MESSAGE_ID that was accepted in a Notify.

use crate::keys::MessageId;
use crate::message::Message;
use crate::node::Node;

impl MessageId {
    /// RFC 2961: in the same epoch, the old identifier less this one, read as a signed number, is above zero.
    fn is_late_behind(self, old: MessageId) -> bool {
        let ahead = old.identifier.wrapping_sub(self.identifier) as i32;
        self.epoch == old.epoch && ahead > 0
    }
}

impl Node {
    /// Whether it is a Notify that lies behind the last one of its sender. A Path is not compared.
    pub(crate) fn is_late(&self, message: &Message<'_>) -> bool {
        let (Message::Open(request) | Message::Close(request)) = message else {
            return false;
        };
        let last = self.last_ids.get(&request.pair.sender);
        last.is_some_and(|&last| request.numbers().is_late_behind(last))
    }
}
