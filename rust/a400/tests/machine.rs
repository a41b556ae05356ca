// The safe wrapper: a machine that owns its words, and replies by name.

use a400::record::{LIGHTS, P};
use a400::{Machine, Registers, Reply, PAGE_REGISTERS, PAGE_WORDS, RECORD_WORDS};

fn machine(words: &[(usize, u16)]) -> Machine {
    let mut memory = vec![0; 2 * PAGE_WORDS];
    for &(address, word) in words {
        memory[address] = word;
    }
    Machine::new(memory)
}

#[test]
fn a_new_machine_is_fresh() {
    let machine = machine(&[]);
    let mut record = [0; RECORD_WORDS];
    record[P] = 2;
    assert_eq!(machine.registers().record(), record);
    assert_eq!(machine.registers(), Registers::of_record(&record));
    assert_eq!(machine.pages().len(), PAGE_REGISTERS);
    assert!((0..PAGE_REGISTERS).all(|place| machine.pages()[place] == (place % 32) as u16));
    assert_eq!(machine.memory().len(), 2 * PAGE_WORDS);
}

#[test]
fn registers_keep_their_places() {
    let record: [u16; RECORD_WORDS] = std::array::from_fn(|place| place as u16);
    let registers = Registers::of_record(&record);
    assert_eq!(registers.record(), record);
    assert_eq!((registers.p, registers.lights), (P as u16, LIGHTS as u16));
}

#[test]
fn steps_and_runs() {
    let mut machine = machine(&[(2, 0o060005), (3, 0o002004), (4, 0o102077), (5, 0o51)]);
    assert_eq!(machine.step(), Reply::Completed);
    assert_eq!(machine.registers().a, 0o51);
    assert_eq!(machine.run(1_000), (Reply::InputOutput, 1));
    assert_eq!(machine.registers(), Registers { a: 0o52, p: 4, ..Machine::new(vec![]).registers() });
    assert_eq!(machine.run(1_000_001), (Reply::BadCall, 0));
    assert_eq!(machine.run(0), (Reply::Completed, 0));
}

#[test]
fn what_is_lent_can_be_changed() {
    let mut machine = machine(&[]);
    machine.memory_mut()[2] = 0o070100;
    machine.set_registers(Registers { a: 0o123, wmap: 0o100000, ..machine.registers() });
    machine.pages_mut()[0] |= 0o040000;
    assert_eq!(machine.step(), Reply::Violation);
    assert_eq!(machine.registers().violation, 2);
    assert_eq!(machine.registers().trap, 7);
    assert_eq!(machine.memory()[0o100], 0);
    machine.set_registers(Registers { e: 2, ..machine.registers() });
    assert_eq!(machine.step(), Reply::BadCall);
}

#[test]
fn a_memory_of_a_wrong_length_is_refused() {
    for length in [0, 1, PAGE_WORDS - 1, PAGE_WORDS + 1] {
        let mut machine = Machine::new(vec![0; length]);
        assert_eq!(machine.step(), Reply::BadCall);
        assert_eq!(machine.run(5), (Reply::BadCall, 0));
    }
}

#[test]
fn words_are_shown_as_the_machine_reads_them() {
    let mut machine = machine(&[(2, 0o11), (PAGE_WORDS, 0o22)]);
    machine.set_registers(Registers { a: 0o33, b: 0o44, ..machine.registers() });
    machine.pages_mut()[1] = 0;
    machine.pages_mut()[3] = 1;
    assert_eq!(machine.word_at(0), Some(0o33));
    assert_eq!(machine.word_at(1), Some(0o44));
    assert_eq!(machine.word_at(2), Some(0o11));
    assert_eq!(machine.word_at(0o2002), Some(0o11));
    assert_eq!(machine.word_at(0o6000), Some(0o22));
    assert_eq!(machine.word_at(0o4000), None);
    assert_eq!(machine.word_at(0o100002), Some(0o11));
}

#[test]
fn replies_have_the_paper_s_numbers() {
    for (number, reply) in Reply::ALL.into_iter().enumerate() {
        assert_eq!(reply.number() as usize, number);
        assert_eq!(Reply::from_number(number as u32), Some(reply));
        assert!(!reply.to_string().is_empty());
    }
    assert_eq!(Reply::from_number(10), None);
    assert_eq!(Reply::Endless.to_string(), "an indirect chain never ends");
}
