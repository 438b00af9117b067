//! Packets of IPv6: the header, and the chain of extension headers before the transport.

use super::*;

impl Draft {
    pub(super) fn packet6(&self, random: &mut Random) -> Vec<u8> {
        let mut payload = self.chain_bytes(random);
        let chain = payload.len();
        payload.extend(self.transport(random));
        self.damage_chain(&mut payload, chain, random);
        if self.damage == Damage::HeaderAlone {
            payload.clear();
        }
        let length = payload.len() as u16;
        let length = match self.damage {
            Damage::LengthOneMore => length + 1,
            Damage::LengthOneLess => length.saturating_sub(1),
            Damage::LengthZero => 0,
            _ => length,
        };
        let version = if self.damage == Damage::Version6 { random.pick(&[0, 0x40, 0x50, 0x70, 0xf0]) } else { 0x60 };
        let mut packet = vec![version | random.below(16) as u8];
        noise(&mut packet, 3, random);
        packet.extend(length.to_be_bytes());
        packet.extend([self.chain.first().map_or(self.protocol(), |header| header.number), 64]);
        packet.extend(self.source6.to_be_bytes());
        packet.extend(self.destination6.to_be_bytes());
        packet.extend(payload);
        packet
    }

    /// Each header names the next one, the last the transport.
    fn chain_bytes(&self, random: &mut Random) -> Vec<u8> {
        let mut bytes = Vec::new();
        for (at, header) in self.chain.iter().enumerate() {
            let next = self.chain.get(at + 1).map_or(self.protocol(), |header| header.number);
            bytes.extend([next, header.units]);
            noise(&mut bytes, 6 + 8 * usize::from(header.units), random);
        }
        bytes
    }

    /// Damages the last header of the chain, which has so many bytes of the payload; the payload length then goes by what is left.
    fn damage_chain(&self, payload: &mut Vec<u8>, chain: usize, random: &mut Random) {
        let Some(last) = self.chain.last() else { return };
        let start = chain - 8 - 8 * usize::from(last.units);
        match self.damage {
            Damage::CutHeader => payload.truncate(start + random.pick(&[0, 1, 2, 7, 7])),
            Damage::CutLength => {
                let left = payload.len() - start;
                payload[start + 1] = random.pick(&[left / 8, left / 8, 255]).min(255) as u8;
            }
            Damage::CutUnit => {
                payload[start + 1] = last.units + 1;
                payload.truncate(chain);
            }
            Damage::CutByte | Damage::CutByteOfLonger => payload.truncate(chain - 1),
            _ => {}
        }
    }
}
