//! Generated questions: each kind, refusal and special case has its share.

use crate::common::ask;
use reference::generator::question_file::{write_question_file, QuestionFile};
use reference::generator::table::{table_of_questions, Table, REFUSAL_END};
use reference::model::broadcast::Channel;
use reference::model::cell::Cause;
use reference::text::question::{Kind, Question};

/// A question file, and the table of what it asks.
fn generated(file: QuestionFile) -> (Vec<u8>, Table) {
    let mut lines = Vec::new();
    write_question_file(file, &mut lines).expect("memory takes all");
    let table = table_of_questions(&mut &lines[..]).expect("memory gives all");
    (lines, table)
}

#[test]
fn every_question_and_refusal_has_its_share() {
    let (_, table) = generated(QuestionFile::new(7, 20_000));
    let all = table.total();
    let line_errors: u64 = table.line_errors.iter().sum();
    assert_eq!(all.asked + line_errors, 20_000);
    assert!(all.accepted >= 10_000);
    for no in 1..REFUSAL_END {
        assert!(all.refused[no] >= 20, "number {no}");
    }
    assert!(table.rows.iter().all(|(_, row)| row.asked > 0));
    assert!(table.line_errors.iter().all(|&count| count > 0));
}

#[test]
fn share_of_acknowledgements() {
    let (_, table) = generated(QuestionFile::new(8, 20_000));
    let of_ack = |question: &Question| question.kind() == Some(Kind::Ack);
    let rows: Vec<_> = table.rows.iter().filter(|(q, _)| of_ack(q)).collect();
    let asked: u64 = rows.iter().map(|(_, row)| row.asked).sum();
    assert!(asked >= 1600, "at least 8 of a hundred");
    for no in [9, 10, 19, 20, 14] {
        let refused: u64 = rows.iter().map(|(_, row)| row.refused[no]).sum();
        assert!(refused >= 20, "number {no}");
    }
}

#[test]
fn share_of_causes() {
    let (_, table) = generated(QuestionFile::new(9, 20_000));
    let row = table.row(Question::Cause);
    assert!(row.asked >= 2000, "at least 10 of a hundred");
    for (cause, count) in Cause::ALL.iter().zip(row.causes) {
        assert!(count >= 50, "{}", cause.word());
    }
    assert!(row.refused[8] >= 50 && row.refused[18] >= 50);
    for kind in [Kind::Down, Kind::Control] {
        let row = table.row(Question::Backward(kind));
        assert!(row.causes.iter().all(|&count| count > 0));
    }
}

#[test]
fn share_of_windows() {
    let (_, table) = generated(QuestionFile::new(10, 20_000));
    assert!(
        table.uplink_with_windows >= 3000,
        "at least 15 of a hundred"
    );
    let all = table.total();
    assert!(all.refused[19] >= 50 && all.refused[20] >= 50);
}

#[test]
fn share_of_messages() {
    let (_, table) = generated(QuestionFile::new(11, 20_000));
    let messages = &table.messages;
    assert!(messages.on_anchor >= 2000, "at least 10 of a hundred");
    assert!(messages.with_overlap >= 200 && messages.filling_period >= 200);
    assert!(messages.over_zero >= 200 && messages.sparse_bitmap >= 100);
    assert!(messages.off_anchor >= 200);
    assert!(messages.nothing_left >= 20 && messages.long_pictures > 0);
    let all = table.total();
    assert!(all.causes[Cause::Message as usize] >= 100);
    assert!(all.refused[21] >= 100 && all.refused[18] >= 100);
}

#[test]
fn share_of_searches() {
    let (_, table) = generated(QuestionFile::new(12, 20_000));
    let row = table.row(Question::Search);
    assert!(row.asked >= 1200, "at least 6 of a hundred");
    assert!(row.refused[22] >= 20 && row.refused[23] >= 20);
    for no in [1, 2, 3, 4, 5, 6, 7, 21, 8, 18, 9, 10, 12] {
        assert!(row.refused[no] > 0, "number {no}");
    }
    let searches = &table.searches;
    assert!(searches.candidates.iter().all(|&count| count >= 20));
    assert!(searches.start_at_n >= 100 && searches.start_not_usable >= 100);
    assert!(searches.with_factor_3 >= 100 && searches.one_start_a_hyperframe >= 100);
    assert!(searches.start_past_turn >= 100 && searches.uneven_step >= 50);
    assert!(searches.past_next_start >= 50 && searches.past_largest_n >= 50);
    assert!(searches.beside_messages >= 100);
}

#[test]
fn share_of_broadcasts() {
    let (_, table) = generated(QuestionFile::new(13, 20_000));
    let broadcasts = &table.broadcasts;
    assert!(broadcasts.asked >= 2000, "at least 10 of a hundred");
    assert!(2 * broadcasts.accepted >= broadcasts.asked);
    assert!(broadcasts.schedules.iter().all(|&count| count >= 50));
    assert!(broadcasts.modes.iter().all(|&count| count >= 200));
    assert!(broadcasts.ours_in_first_period >= 50 && broadcasts.ours_later >= 200);
    assert!(broadcasts.ours_far_away >= 50 && broadcasts.cell_references_out_of_band > 5);
    assert!(broadcasts.other_control_region >= 200 && broadcasts.with_bitmap_or_messages >= 500);
    assert!(table.total().refused[25] >= 100);
    for make in [Question::ChannelForward, Question::ChannelBackward] {
        for channel in Channel::ALL {
            let row = table.row(make(channel));
            assert!(row.refused[25] > 0 && row.refused[14] > 0);
        }
    }
}

/// Each generated question may be asked of the plain engine: another value of
/// `engine` changes no answer.
#[test]
fn share_of_plain_engine() {
    let (file, table) = generated(QuestionFile::new(14, 20_000));
    assert!(table.plain_engine.iter().all(|&count| count >= 200));
    let text = String::from_utf8_lossy(&file);
    assert!(text.matches(" engine=0").count() >= 200);
    let plain = text.replace(" engine=0", " engine=1");
    assert_eq!(ask(&plain), ask(&text));
}

#[test]
fn questions_of_one_kind() {
    for only in [
        Question::Forward(Kind::Up),
        Question::Timeline(Kind::Down),
        Question::Picture(Kind::Ack),
        Question::Meaning,
        Question::Help(None),
    ] {
        let (_, table) = generated(QuestionFile {
            only: Some(only),
            ..QuestionFile::new(1, 500)
        });
        assert_eq!(table.total().asked, 500);
        assert_eq!(table.row(only).asked, 500);
    }
}
