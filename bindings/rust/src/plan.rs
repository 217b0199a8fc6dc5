//! Plans of backups.
use core::fmt;
use core::str::FromStr;

use crate::error::Error;
use crate::ffi;
use crate::secret::SECRET_BYTES_MIN;
use crate::text::Text;

/// The longest plan has the group threshold and 16 groups, with two digits for each number.
const PLAN_BYTES_MAX: usize = "16/".len() + 16 * "16of16,".len() - 1;

/// How many groups and members a backup has, and how many of them are needed.
///
/// Its text is `TofN` for one group, or `GT/T1ofN1,T2ofN2,..` for up to 16 groups. `GT` is the group threshold, each `T` is the
/// member threshold of a group, and each `N` is its number of members. Each number is from 1 to 16. `T` may be 1 only if `N` is 1.
///
/// ```
/// use shamir::{Error, Plan};
///
/// # fn main() -> Result<(), Error> {
/// let plan: Plan = "2/2of3,3of5".parse()?;
/// assert_eq!(plan.as_str(), "2/2of3,3of5");
/// assert_eq!("2/1of3,3of5".parse::<Plan>(), Err(Error::OneOfMany { group: 0 }));
/// # Ok(())
/// # }
/// ```
#[derive(Clone, Copy, PartialEq, Eq, Hash)]
pub struct Plan(Text<PLAN_BYTES_MAX>);

impl Plan {
    /// Gives the text of the plan.
    ///
    /// ```
    /// # fn main() -> Result<(), shamir::Error> {
    /// assert_eq!("2of3".parse::<shamir::Plan>()?.as_str(), "2of3");
    /// # Ok(())
    /// # }
    /// ```
    #[must_use]
    pub fn as_str(&self) -> &str {
        self.0.as_str()
    }

    /// Computes how many random bytes a creation takes for a secret of this many bytes.
    ///
    /// Gives [`Error::SecretLength`] if no secret has this length.
    ///
    /// ```
    /// # fn main() -> Result<(), shamir::Error> {
    /// assert_eq!("2of3".parse::<shamir::Plan>()?.random_needed(16)?, 14);
    /// # Ok(())
    /// # }
    /// ```
    pub fn random_needed(&self, secret_bytes: usize) -> Result<usize, Error> {
        let answer = ffi::random_needed(self.as_str().as_bytes(), secret_bytes).checked()?;
        // It is at most RANDOM_BYTES_MAX.
        Ok(answer.first as usize)
    }

    /// Begins a plan with a group threshold. Its groups follow, and [`PlanBuilder::build`] ends it.
    ///
    /// ```
    /// # fn main() -> Result<(), shamir::Error> {
    /// let plan = shamir::Plan::builder(2).group(2, 3).group(3, 5).build()?;
    /// assert_eq!(plan.as_str(), "2/2of3,3of5");
    /// # Ok(())
    /// # }
    /// ```
    #[cfg(feature = "alloc")]
    pub fn builder(group_threshold: u8) -> PlanBuilder {
        PlanBuilder { text: alloc::format!("{group_threshold}/") }
    }
}

impl FromStr for Plan {
    type Err = Error;

    /// Reads a plan. The library decides whether the text is one: the errors are [`Error::BadPlan`], [`Error::PlanGroups`],
    /// [`Error::PlanMembers`] and [`Error::OneOfMany`].
    fn from_str(text: &str) -> Result<Plan, Error> {
        // Every plan takes a secret of this length.
        ffi::random_needed(text.as_bytes(), SECRET_BYTES_MIN).checked()?;
        Ok(Plan(Text::of(text.as_bytes())))
    }
}

impl TryFrom<&str> for Plan {
    type Error = Error;

    fn try_from(text: &str) -> Result<Plan, Error> {
        text.parse()
    }
}

impl fmt::Display for Plan {
    fn fmt(&self, formatter: &mut fmt::Formatter<'_>) -> fmt::Result {
        formatter.pad(self.as_str())
    }
}

impl fmt::Debug for Plan {
    fn fmt(&self, formatter: &mut fmt::Formatter<'_>) -> fmt::Result {
        write!(formatter, "Plan({})", self.as_str())
    }
}

impl AsRef<str> for Plan {
    fn as_ref(&self) -> &str {
        self.as_str()
    }
}

/// A plan whose groups are still being added. [`Plan::builder`] begins one.
///
/// ```
/// use shamir::{Error, Plan};
///
/// let groups = [(1, 1), (4, 5), (5, 3)];
/// let builder = groups.iter().fold(Plan::builder(2), |plan, &(threshold, members)| plan.group(threshold, members));
/// assert_eq!(builder.build(), Err(Error::PlanMembers { group: 2 }));
/// ```
#[cfg(feature = "alloc")]
#[derive(Clone, Debug)]
#[must_use]
pub struct PlanBuilder {
    /// The text of the plan, with a comma after each group.
    text: alloc::string::String,
}

#[cfg(feature = "alloc")]
impl PlanBuilder {
    /// Adds a group with its member threshold and its number of members.
    ///
    /// ```
    /// # fn main() -> Result<(), shamir::Error> {
    /// assert_eq!(shamir::Plan::builder(1).group(2, 3).build()?.as_str(), "1/2of3");
    /// # Ok(())
    /// # }
    /// ```
    pub fn group(mut self, member_threshold: u8, members: u8) -> PlanBuilder {
        self.text.push_str(&alloc::format!("{member_threshold}of{members},"));
        self
    }

    /// Gives the plan, if the library takes it. The errors are those of a plan that is read from its text. A number that is 0 or
    /// above 99 is [`Error::BadPlan`].
    ///
    /// ```
    /// assert_eq!(shamir::Plan::builder(3).group(2, 3).build(), Err(shamir::Error::PlanGroups));
    /// ```
    pub fn build(self) -> Result<Plan, Error> {
        self.text.trim_end_matches(',').parse()
    }
}
