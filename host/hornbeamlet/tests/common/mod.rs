//! The library in the reference's own terms, so that one question can be put to
//! both and their answers compared whole.

use hornbeamlet::Library;
use reference::calls::{Calls, IndexCalls};
use reference::{Answer, Settings};

/// The library as one who answers all calls.
pub struct Proved<'a>(pub &'a Library);

impl Calls for Proved<'_> {
    fn compare(
        &self,
        settings: Settings,
        first: &[u8],
        second: &[u8],
        work: &mut [u32],
        list: &mut [u32],
    ) -> Answer {
        let settings = to_library(settings);
        from_library(self.0.compare(settings, first, second, work, list))
    }

    fn stopped(
        &self,
        settings: Settings,
        first: &[u8],
        second: &[u8],
        work: &mut [u32],
        row: u32,
    ) -> Answer {
        let settings = to_library(settings);
        from_library(self.0.stopped(settings, first, second, work, row))
    }

    fn need(&self, settings: Settings, first: &[u8], second: &[u8]) -> u64 {
        self.0.need(to_library(settings), first, second)
    }
}

impl IndexCalls for Proved<'_> {
    fn index(&self, k: u32, mask: u32, second: &[u8], index: &mut [u32]) -> Answer {
        from_library(self.0.index(k, mask, second, index))
    }

    fn compare_indexed(
        &self,
        settings: Settings,
        first: &[u8],
        second: &[u8],
        index: &[u32],
        work: &mut [u32],
        list: &mut [u32],
    ) -> Answer {
        let settings = to_library(settings);
        let answer = self
            .0
            .compare_indexed(settings, first, second, index, work, list);
        from_library(answer)
    }

    fn stopped_indexed(
        &self,
        settings: Settings,
        first: &[u8],
        second: &[u8],
        index: &[u32],
        work: &mut [u32],
        row: u32,
    ) -> Answer {
        let settings = to_library(settings);
        let answer = self
            .0
            .stopped_indexed(settings, first, second, index, work, row);
        from_library(answer)
    }
}

fn to_library(settings: Settings) -> hornbeamlet::Entered {
    hornbeamlet::Entered {
        k: settings.k,
        b: settings.b,
        a: settings.a,
        m: settings.m,
        strand: settings.strand,
        mask: settings.mask,
    }
}

fn from_library(answer: hornbeamlet::Answer) -> Answer {
    Answer {
        number: answer.number,
        sequence: answer.sequence,
        detail: answer.detail,
        listed: answer.listed,
        matches: answer.matches,
        widest: answer.widest,
        links: answer.links,
    }
}
