//! Lock requests: the block that follows CMD42.

use crate::card::*;

impl Card {
    /// Carries out a lock request; false is a failed one, which changes nothing.
    pub fn lock_request(&mut self, payload: &[u8], memory: &mut [u8], map: &mut [u8]) -> bool {
        // "Byte 0: 0 unlock, 1 set, 2 clear, 4 lock, 5 set and lock, 8 forced erase; others fail."
        let request = payload[0];
        // "A locked card grants only 0 and 8; an unlocked one never grants 0 or 8."
        if self.locked != matches!(request, 0 | 8) {
            return false;
        }
        // "Byte 1 isn't read for 8."
        if request == 8 {
            return self.forced_erase(memory, map);
        }
        // "A block too short for byte 1 or for the length it gives fails, except that 8 needs byte 0 only."
        let Some(&length) = payload.get(1) else { return false };
        // "Byte 1 is the password length (in 1 and 5, of old and new together), bytes follow, surplus ignored."
        let Some(passwords) = payload[2..].get(..length as usize) else { return false };
        match request {
            1 | 5 => self.set_password(passwords, request == 5),
            // "Clear, lock and unlock need the stored non-empty password."
            0 | 2 | 4 if self.password.is_empty() || passwords != self.password => false,
            2 => {
                self.password.clear();
                true
            }
            0 | 4 => {
                self.locked = request == 4;
                true
            }
            _ => false,
        }
    }

    /// "Set carries old then new, new 1 to 16 bytes; old must match."
    fn set_password(&mut self, passwords: &[u8], and_lock: bool) -> bool {
        let Some(new) = passwords.strip_prefix(&self.password[..]) else { return false };
        if !(1..=16).contains(&new.len()) {
            return false;
        }
        self.password = new.to_vec();
        self.locked = and_lock;
        true
    }

    /// "Forced erase fails if CSD bit 13 or 12 is set; else it fills memory, clears the map, drops
    /// the password, unlocks."
    fn forced_erase(&mut self, memory: &mut [u8], map: &mut [u8]) -> bool {
        if self.is_wholly_protected() {
            return false;
        }
        memory.fill(0xFF);
        map.fill(0);
        self.password.clear();
        self.locked = false;
        true
    }
}
