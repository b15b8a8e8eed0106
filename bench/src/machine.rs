//! The processor: what it is called, and whether a time measured on it says something.

use itself::{emulated, own_name};

/// Why a time measured here would say nothing, if it would not.
pub fn untimeable() -> Option<&'static str> {
    if std::env::var_os("BENCH_EMULATED").is_some() {
        return Some("this runs under an emulator, so bench/run says");
    }
    emulated().then_some("the processor is emulated by QEMU")
}

/// What bench/run calls the processor, or what it calls itself.
pub fn name() -> String {
    std::env::var("BENCH_MACHINE").unwrap_or_else(|_| own_name())
}

#[cfg(target_arch = "x86_64")]
mod itself {
    use std::arch::x86_64::__cpuid;

    pub fn emulated() -> bool {
        words(&[0x4000_0000])[4..] == *b"TCGTCGTCGTCG"
    }

    pub fn own_name() -> String {
        let name: Vec<u8> = words(&[0x8000_0002, 0x8000_0003, 0x8000_0004]);
        String::from_utf8_lossy(&name)
            .trim_matches(['\0', ' '])
            .to_string()
    }

    /// The bytes that the processor answers to these questions.
    #[allow(unused_unsafe)]
    fn words(leaves: &[u32]) -> Vec<u8> {
        // SAFETY: every x86-64 processor has the instruction.
        let answers = leaves.iter().map(|&leaf| unsafe { __cpuid(leaf) });
        answers
            .flat_map(|a| [a.eax, a.ebx, a.ecx, a.edx])
            .flat_map(u32::to_le_bytes)
            .collect()
    }
}

#[cfg(not(target_arch = "x86_64"))]
mod itself {
    pub fn emulated() -> bool {
        false
    }

    pub fn own_name() -> String {
        std::env::consts::ARCH.to_string()
    }
}
