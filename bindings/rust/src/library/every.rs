//! The calls over all paths.

use super::{made, Handle, Rules};

/// A rule that decides on no path which is reached, by the lengths of its texts.
#[repr(C)]
#[derive(Clone, Copy, Default)]
pub struct FindingParts {
    pub kind: u32,
    pub rule: usize,
    pub overruling: usize,
    pub path: usize,
    pub folder: usize,
    pub folder_rule: usize,
    pub is_dir: bool,
}

/// How two lists are compared.
#[repr(C)]
#[derive(Clone, Copy)]
pub struct Comparing {
    pub limit: usize,
    pub only_ignored: bool,
}

/// A path at which two lists differ, by its length.
#[repr(C)]
#[derive(Clone, Copy, Default)]
pub struct DifferenceParts {
    pub before: u32,
    pub after: u32,
    pub path: usize,
    pub before_rule: usize,
    pub after_rule: usize,
    pub is_dir: bool,
}

extern "C" {
    fn ignore_rules_dead(rules: *mut Handle, limit: usize, findings: *mut Handle) -> u32;
    fn ignore_findings_rule(
        findings: *mut Handle,
        index: usize,
        finding: *mut FindingParts,
        room: *mut u8,
        room_length: usize,
    ) -> u32;
    fn ignore_findings_overruling(
        findings: *mut Handle,
        index: usize,
        number: usize,
        rule: *mut usize,
    ) -> u32;
    fn ignore_findings_free(findings: Handle);
    fn ignore_rules_same(
        before: *mut Handle,
        after: *mut Handle,
        options: *const Comparing,
        difference: *mut DifferenceParts,
        room: *mut u8,
        room_length: usize,
    ) -> u32;
}

impl Rules {
    /// Whether these rules and others say the same, and where not, in `difference` and `room`.
    pub fn same(
        &mut self,
        after: &mut Rules,
        options: &Comparing,
        difference: &mut DifferenceParts,
        room: &mut [u8],
    ) -> u32 {
        let (at, length) = (room.as_mut_ptr(), room.len());
        unsafe { ignore_rules_same(&mut self.0, &mut after.0, options, difference, at, length) }
    }
}

/// A handle of findings, which it owns.
pub struct Findings(Handle);

impl Findings {
    /// The findings of rules, or the code of why there are none.
    pub fn new(rules: &mut Rules, limit: usize) -> Result<Findings, u32> {
        made(|at| unsafe { ignore_rules_dead(&mut rules.0, limit, at) }).map(Findings)
    }

    /// What is found of the rule at an index of these, in `finding` and `room`.
    pub fn rule(&mut self, index: usize, finding: &mut FindingParts, room: &mut [u8]) -> u32 {
        unsafe { ignore_findings_rule(&mut self.0, index, finding, room.as_mut_ptr(), room.len()) }
    }

    /// Of the rules that overrule the one at an index of these, that with a number.
    pub fn overruling(&mut self, index: usize, number: usize, rule: &mut usize) -> u32 {
        unsafe { ignore_findings_overruling(&mut self.0, index, number, rule) }
    }
}

impl Drop for Findings {
    fn drop(&mut self) {
        unsafe { ignore_findings_free(self.0) }
    }
}
