//! The commands of the manual's chapter 4.

use std::fmt;

use crate::answers;
use crate::refusal::Refusal;

/// A command of the manual's chapter 4. `Display` writes the name that the manual has for it, and
/// [`id`](Command::id) is its message type; two have one name, and no two one id.
#[derive(Clone, Copy, Debug, PartialEq, Eq, PartialOrd, Ord, Hash)]
pub enum Command {
    /// `FM.1`: start a federate.
    StartFederate,
    /// `FS.1`: the federate starter asks for the status.
    StarterRequestStatus,
    /// `MC.1`: the status.
    Status,
    /// `FS.2`: a federate is started.
    FederateStarted,
    /// `FM.2`: how a run is to be made.
    SimRunControl,
    /// `MC.2`: a message is taken, or not.
    AckNak,
    /// `FM.3`: set a parameter.
    SetParameter,
    /// `FM.4`: start the run.
    SimStart,
    /// `FM.5`: the federation manager asks for the status.
    RequestStatus,
    /// `FM.6`: ask for a statistic.
    RequestStatistics,
    /// `MC.3`: a statistic.
    Statistics,
    /// `MC.4`: a statistic that is not had.
    StatisticsError,
    /// `FM.7`: reset the run.
    SimReset,
    /// `FM.8`: end a federate.
    KillFederate,
    /// `FM.9`: end all of them.
    KillAll,
    /// `FS.3`: end a model.
    KillModel,
    /// `FS.4`: a federate is ended.
    FederateKilled,
    /// `FS.5`: all of them are ended.
    FederatesKilled,
}

impl Command {
    /// All eighteen, in the manual's order.
    pub const ALL: [Command; 18] = [
        Command::StartFederate,
        Command::StarterRequestStatus,
        Command::Status,
        Command::FederateStarted,
        Command::SimRunControl,
        Command::AckNak,
        Command::SetParameter,
        Command::SimStart,
        Command::RequestStatus,
        Command::RequestStatistics,
        Command::Statistics,
        Command::StatisticsError,
        Command::SimReset,
        Command::KillFederate,
        Command::KillAll,
        Command::KillModel,
        Command::FederateKilled,
        Command::FederatesKilled,
    ];

    /// Its message type, as a message has it.
    #[must_use]
    pub const fn id(self) -> &'static str {
        self.words().0
    }

    /// Its message type, and the manual's name for it.
    const fn words(self) -> (&'static str, &'static str) {
        match self {
            Command::StartFederate => ("FM.1", "StartFederate"),
            Command::StarterRequestStatus => ("FS.1", "RequestStatus"),
            Command::Status => ("MC.1", "Status"),
            Command::FederateStarted => ("FS.2", "FederateStarted"),
            Command::SimRunControl => ("FM.2", "SimRunControl"),
            Command::AckNak => ("MC.2", "AckNak"),
            Command::SetParameter => ("FM.3", "SetParameter"),
            Command::SimStart => ("FM.4", "SimStart"),
            Command::RequestStatus => ("FM.5", "RequestStatus"),
            Command::RequestStatistics => ("FM.6", "RequestStatistics"),
            Command::Statistics => ("MC.3", "Statistics"),
            Command::StatisticsError => ("MC.4", "StatisticsError"),
            Command::SimReset => ("FM.7", "SimReset"),
            Command::KillFederate => ("FM.8", "KillFederate"),
            Command::KillAll => ("FM.9", "KillAll"),
            Command::KillModel => ("FS.3", "KillModel"),
            Command::FederateKilled => ("FS.4", "FederateKilled"),
            Command::FederatesKilled => ("FS.5", "FederatesKilled"),
        }
    }
}

impl fmt::Display for Command {
    fn fmt(&self, f: &mut fmt::Formatter<'_>) -> fmt::Result {
        f.pad(self.words().1)
    }
}

/// Which command of the manual's chapter 4 a message is.
///
/// ```
/// use sim0mq::{command, Command};
///
/// let message = b"\x09\0\0\0\x05SIM01\x01\0\x01\x01\0\x02\x01\0\x03\x09\0\0\0\x04FM.4\
///     \x03\0\0\0\0\0\0\0\x01\0\x01\0\0";
/// let found = command(message)?;
/// assert_eq!((found, found.id(), &*found.to_string()), (Command::SimStart, "FM.4", "SimStart"));
/// # Ok::<(), sim0mq::Refusal>(())
/// ```
///
/// # Errors
///
/// The refusal of reading; then 20 where its type is no command's, 21 for its status or the number
/// of its fields, 22 for the code of a field or its unit type, 23 for a string that may not be
/// empty or is none of its words.
pub fn command(message: &[u8]) -> Result<Command, Refusal> {
    answers::command(message).map(|number| Command::ALL[number])
}
