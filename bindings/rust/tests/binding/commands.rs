//! The commands of the manual's chapter 4.

use std::collections::HashSet;

use sim0mq::{command, Command};

use crate::{of_type, told, with, S};

/// A string field of this text.
fn text(words: &str) -> Vec<u8> {
    [&[9], &(words.len() as u32).to_be_bytes()[..], words.as_bytes()].concat()
}

/// The fields that each command has, in the manual's order, with its status.
fn fields(command: Command) -> (u8, Vec<Vec<u8>>) {
    let (yes, long, short, int) = (vec![6, 1], vec![3; 9], vec![1, 0, 80], |n| vec![2, 0, 0, 0, n]);
    let duration = vec![26, 25, 0, 0, 0, 0, 0, 0, 0, 0, 0];
    let time = vec![25, 26, 0, 0, 0, 0, 0];
    let double = vec![5, 0, 0, 0, 0, 0, 0, 0, 0];
    match command {
        Command::StartFederate => {
            let words = ["MM1.1", "java", "", "mm1.jar", "", "/tmp", "", "out", "err"];
            (1, words.map(text).into_iter().chain([yes.clone(), yes.clone(), yes]).collect())
        }
        Command::Status => (1, vec![long, text("running"), text("")]),
        Command::FederateStarted => (1, vec![text("MM1.1"), text("ended"), short, text("")]),
        Command::SimRunControl => {
            let stream = [text("default"), long];
            let run = vec![duration, double.clone(), time, double, int(1), int(1)];
            (1, [run, stream.to_vec()].concat())
        }
        Command::AckNak => (1, vec![long, yes, text("")]),
        Command::SetParameter | Command::Statistics => (1, vec![text("iat"), double]),
        Command::RequestStatistics | Command::KillFederate => (1, vec![text("dN")]),
        Command::StatisticsError => (1, vec![text("dN"), text("novalue")]),
        Command::SimReset => (2, vec![]),
        Command::FederateKilled => (1, vec![text("MM1.1"), yes, text("")]),
        Command::FederatesKilled => (1, vec![yes, text("")]),
        _ => (1, vec![]),
    }
}

#[test]
fn each_command_is_told_by_its_type() {
    for each in Command::ALL {
        let (status, fields) = fields(each);
        let fields: Vec<&[u8]> = fields.iter().map(Vec::as_slice).collect();
        assert_eq!(command(&of_type(each.id(), 1, status, &fields)), Ok(each));
    }
}

#[test]
fn ids_differ_and_names_are_the_manuals() {
    let ids: HashSet<_> = Command::ALL.map(Command::id).into_iter().collect();
    assert_eq!(ids.len(), 18);
    assert_eq!(Command::FederateKilled.to_string(), "FederateKilled");
    assert_eq!(Command::StarterRequestStatus.to_string(), "RequestStatus");
    assert_eq!(Command::RequestStatus.to_string(), "RequestStatus");
    assert_eq!(format!("{:<10}|", Command::Status), "Status    |");
}

/// How a message of this type, status and fields is refused.
fn refused(id: &str, status: u8, fields: &[&[u8]]) -> (u8, usize) {
    told(command(&of_type(id, 1, status, fields)).unwrap_err())
}

#[test]
fn refusals_of_commands() {
    assert_eq!(told(command(S).unwrap_err()), (20, 43));
    assert_eq!(told(command(&with(&[(64, 4)])).unwrap_err()), (6, 64));
    // The type frame is at 25; the first field stands after it and 13 bytes more.
    assert_eq!(refused("FM.10", 1, &[]), (20, 25));
    assert_eq!(refused("FM.4", 2, &[]), (21, 25));
    assert_eq!(refused("FM.4", 1, &[&[6, 1]]), (21, 25));
    assert_eq!(refused("FM.7", 1, &[]), (21, 25));
    let first = 25 + 9 + 13;
    assert_eq!(refused("FS.5", 1, &[&[0, 1], &text("")]), (22, first));
    assert_eq!(refused("FS.5", 1, &[&[6, 1], &[6, 1]]), (22, first + 2));
    assert_eq!(refused("MC.4", 1, &[&text("dN"), &text("value")]), (23, first + 7));
}
