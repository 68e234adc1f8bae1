//! How many scripts may run at once.

use redo_scripts::jobserver::{Jobserver, NoJobserver};

/// Returns the jobserver of a run, if more than one script may run at once: `asked` is what its
/// options say; else it is that of MAKEFLAGS, and where there is none, one for so many jobs as the
/// environment says.
pub fn jobserver(
    asked: Option<u32>,
    by_variable: Option<u32>,
    makeflags: Option<&[u8]>,
) -> Result<Option<Jobserver>, NoJobserver> {
    if let Some(jobs) = asked {
        return served(jobs);
    }
    match Jobserver::joined(makeflags.unwrap_or_default())? {
        Some(joined) => Ok(Some(joined)),
        None => served(by_variable.unwrap_or(1)),
    }
}

fn served(jobs: u32) -> Result<Option<Jobserver>, NoJobserver> {
    match usize::try_from(jobs) {
        Ok(jobs) if jobs > 1 => Jobserver::served(jobs).map(Some),
        _ => Ok(None),
    }
}

#[cfg(test)]
mod tests {
    use super::*;

    fn tokens(asked: Option<u32>, by_variable: Option<u32>) -> Option<usize> {
        let mut found = jobserver(asked, by_variable, None).unwrap()?;
        found.want(usize::MAX);
        Some(found.on_readable().unwrap())
    }

    #[test]
    fn one_job_needs_no_jobserver_and_more_have_a_token_less() {
        assert_eq!(tokens(None, None), None);
        assert_eq!(tokens(Some(1), Some(9)), None);
        assert_eq!(tokens(Some(4), Some(9)), Some(3));
        assert_eq!(tokens(None, Some(9)), Some(8));
        assert_eq!(tokens(None, Some(1)), None);
    }
}
