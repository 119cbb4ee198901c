//! OpenFst, by openfst.cc, where bench/run has found it; else there is no machine.

#[cfg(not(openfst))]
pub use absent::Machine;
#[cfg(openfst)]
pub use linked::Machine;

/// How OpenFst searches the composition of word and machine.
#[derive(Clone, Copy)]
pub enum By {
    Queue,
    Stack,
}

#[cfg(openfst)]
mod linked {
    use super::By;
    use crate::plain::Held;
    use std::ffi::c_void;

    extern "C" {
        fn openfst_hold(table: *const u8) -> *mut c_void;
        fn openfst_hold_first(table: *const u8) -> *mut c_void;
        fn openfst_drop(machine: *mut c_void);
        fn openfst_translate(machine: *const c_void, word: *const u8, length: usize, stack: bool, output: *mut u8) -> isize;
        fn openfst_join(first: *const c_void, second: *const c_void) -> *mut c_void;
        fn openfst_reads(machine: *const c_void, word: *const u8, length: usize) -> bool;
    }

    /// A machine in OpenFst's own form.
    pub struct Machine(*mut c_void);

    impl Machine {
        pub fn hold(held: &Held) -> Option<Machine> {
            Some(Machine(unsafe { openfst_hold(held.as_ptr()) }))
        }

        /// As the first machine of a join: no line may write more than one code.
        pub fn hold_first(held: &Held) -> Option<Machine> {
            Some(Machine(unsafe { openfst_hold_first(held.as_ptr()) }))
        }

        /// Writes the output of an accepting path that reads the word, and returns it; None where there is none. The list must hold it.
        pub fn translate<'a>(&self, word: &[u8], by: By, output: &'a mut [u8]) -> Option<&'a [u8]> {
            let length = unsafe { openfst_translate(self.0, word.as_ptr(), word.len(), matches!(by, By::Stack), output.as_mut_ptr()) };
            Some(&output[..usize::try_from(length).ok()?])
        }

        pub fn join(&self, second: &Machine) -> Machine {
            Machine(unsafe { openfst_join(self.0, second.0) })
        }

        pub fn reads(&self, word: &[u8]) -> bool {
            unsafe { openfst_reads(self.0, word.as_ptr(), word.len()) }
        }
    }

    impl Drop for Machine {
        fn drop(&mut self) {
            unsafe { openfst_drop(self.0) }
        }
    }
}

#[cfg(not(openfst))]
mod absent {
    use super::By;
    use crate::plain::Held;

    /// There is none, so that the rest is never asked.
    pub struct Machine(());

    impl Machine {
        pub fn hold(_: &Held) -> Option<Machine> {
            None.map(Machine)
        }

        pub fn hold_first(_: &Held) -> Option<Machine> {
            None.map(Machine)
        }

        pub fn translate<'a>(&self, _: &[u8], _: By, _: &'a mut [u8]) -> Option<&'a [u8]> {
            None
        }

        pub fn join(&self, _: &Machine) -> Machine {
            Machine(())
        }

        pub fn reads(&self, _: &[u8]) -> bool {
            false
        }
    }
}
