//! The registers, the waits and their ranges.

pub const I2C_SEL: u8 = 0x01;
pub const SPI_SEL: u8 = 0x02;
pub const ONE_WIRE_SEL: u8 = 0x04;
pub const REPORTS_EN: u8 = 0x08;
pub const AUTOLOAD_EN: u8 = 0x10;
/// The bits of the three interfaces.
pub const INTERFACES: u8 = I2C_SEL | SPI_SEL | ONE_WIRE_SEL;
/// Flag bits 5 to 7, zero in every state.
pub const UNUSED_FLAGS: u8 = 0xE0;

/// Bits of DDRC and PORTC that are zero in every state.
pub const ZERO_C: u8 = 0xC0;
/// Bits of DDRD and PORTD that are zero in every state.
pub const ZERO_D: u8 = 0x03;

pub const NO_ERROR: u8 = 0x00;
pub const NO_ACKNOWLEDGE: u8 = 0x20;
pub const NO_CONFIGURATION: u8 = 0x40;
pub const NO_PRESENCE: u8 = 0x60;
pub const UNKNOWN_COMMAND: u8 = 0x80;
/// 02, Ask 1: "the new device code 84".
pub const WRONG_INTERFACE: u8 = 0x84;

/// "86 C4 CC, BC BF F9, BC BF C7"
pub const DEFAULT_TIMINGS: [u8; 9] = [0x86, 0xC4, 0xCC, 0xBC, 0xBF, 0xF9, 0xBC, 0xBF, 0xC7];

#[derive(Clone, Copy, PartialEq, Eq, Debug)]
pub enum Fault {
    Frame,
    Overrun,
    Parity,
}

impl Fault {
    pub fn code(self) -> u8 {
        match self {
            Fault::Frame => 0x81,
            Fault::Overrun => 0x82,
            Fault::Parity => 0x83,
        }
    }

    pub fn from_code(code: u8) -> Option<Fault> {
        [Fault::Frame, Fault::Overrun, Fault::Parity].into_iter().find(|fault| fault.code() == code)
    }
}

#[derive(Clone, Copy, PartialEq, Eq, Debug)]
pub enum Event {
    Byte(u8),
    Fault(Fault),
}

/// The direction and latch registers of the three ports.
#[derive(Clone, Copy, PartialEq, Eq, Debug)]
pub enum Register {
    Ddrb,
    Portb,
    Ddrc,
    Portc,
    Ddrd,
    Portd,
}

impl Register {
    /// In the order of reinit, of the EPROM and of the commands 0B to 16.
    pub const ALL: [Register; 6] =
        [Register::Ddrb, Register::Portb, Register::Ddrc, Register::Portc, Register::Ddrd, Register::Portd];

    /// "Protected bits keep their old bits: C 6, 7; D 0, 1, 5."
    pub fn protected(self) -> u8 {
        match self {
            Register::Ddrb | Register::Portb => 0x00,
            Register::Ddrc | Register::Portc => 0xC0,
            Register::Ddrd | Register::Portd => 0x23,
        }
    }
}

/// What a single awaited byte goes to.
#[derive(Clone, Copy, PartialEq, Eq, Debug)]
pub enum Operand {
    Register(Register),
    IogCount,
    I2cByte,
    SpiConfig,
    SpiSize,
    OneWireByte,
    OneWireBit,
    /// A 1-Wire byte followed by the strong pull-up.
    OneWireByteStrong,
}

#[derive(Clone, Copy, PartialEq, Eq, Debug, Default)]
pub enum Wait {
    #[default]
    Nothing,
    One(Operand),
    /// After 1D.
    Extended,
    /// After 44, or after 4C, which exchanges at the last byte.
    Packet {
        left: u8,
        exchange: bool,
    },
    Timings {
        left: u8,
    },
}

impl Wait {
    /// The flag of the interface that the wait belongs to, 0 for none.
    fn interface(self) -> u8 {
        match self {
            Wait::Nothing | Wait::Extended => 0,
            Wait::One(Operand::Register(_) | Operand::IogCount) => 0,
            Wait::One(Operand::I2cByte) => I2C_SEL,
            Wait::One(Operand::SpiConfig | Operand::SpiSize) | Wait::Packet { .. } => SPI_SEL,
            Wait::One(Operand::OneWireByte | Operand::OneWireBit | Operand::OneWireByteStrong) => {
                ONE_WIRE_SEL
            }
            Wait::Timings { .. } => ONE_WIRE_SEL,
        }
    }
}

#[derive(Clone, PartialEq, Eq, Debug, Default)]
pub struct State {
    /// COMMON_FLAGS.
    pub flags: u8,
    pub error: u8,
    pub ddrb: u8,
    pub portb: u8,
    pub ddrc: u8,
    pub portc: u8,
    pub ddrd: u8,
    pub portd: u8,
    /// CONFIG_SPI.
    pub config: u8,
    pub configured: bool,
    /// PAKET_SIZE, which is N - 1.
    pub size: u8,
    /// REG0 first.
    pub packet: [u8; 8],
    pub timings: [u8; 9],
    pub eprom: [u8; 10],
    /// The IOG count.
    pub iog: u8,
    pub version: u8,
    /// Low byte first.
    pub serial: [u8; 4],
    pub wait: Wait,
    /// The packet or timing bytes received so far in this wait, the rest 0.
    pub held: [u8; 9],
    /// 02, Ask 2: "The state remembers the drop until that byte, even a 00, comes".
    pub drops: bool,
}

impl State {
    /// N, the packet size in bits.
    pub fn bits(&self) -> u32 {
        u32::from(self.size) + 1
    }

    /// ceil(N/8), the packet size in bytes.
    pub fn packet_bytes(&self) -> u8 {
        self.size / 8 + 1
    }

    /// Starts a wait, with nothing held.
    pub fn begin(&mut self, wait: Wait) {
        self.wait = wait;
        self.held = [0; 9];
    }

    /// Ends a wait and lets go of what was held.
    pub fn end_wait(&mut self) {
        self.begin(Wait::Nothing);
    }

    pub fn register(&self, register: Register) -> u8 {
        match register {
            Register::Ddrb => self.ddrb,
            Register::Portb => self.portb,
            Register::Ddrc => self.ddrc,
            Register::Portc => self.portc,
            Register::Ddrd => self.ddrd,
            Register::Portd => self.portd,
        }
    }

    pub fn register_mut(&mut self, register: Register) -> &mut u8 {
        match register {
            Register::Ddrb => &mut self.ddrb,
            Register::Portb => &mut self.portb,
            Register::Ddrc => &mut self.ddrc,
            Register::Portc => &mut self.portc,
            Register::Ddrd => &mut self.ddrd,
            Register::Portd => &mut self.portd,
        }
    }

    /// Whether refusal 1 does not apply, clause by clause.
    pub fn in_range(&self) -> bool {
        let two_interfaces = (self.flags & INTERFACES).count_ones() > 1;
        let unused_flags = self.flags & UNUSED_FLAGS != 0;
        let size = self.size > 63;
        let config = self.config > 7;
        let protected = (self.ddrc | self.portc) & ZERO_C != 0 || (self.ddrd | self.portd) & ZERO_D != 0;
        let not_selected = self.wait.interface() & !self.flags != 0;
        let count = match self.wait {
            Wait::Packet { left, .. } => !self.configured || left < 1 || left > self.packet_bytes(),
            Wait::Timings { left } => !(1..=9).contains(&left),
            _ => false,
        };
        // 02, Ask 2: "1 also for a drop beside a wait"
        let drop = self.drops && self.wait != Wait::Nothing;
        !(two_interfaces || unused_flags || size || config || protected || not_selected || count || drop)
    }
}
