//! A run that is followed along the lines makes the objects that the second
//! program makes.

use desk::follow::forms;
use desk::library::Library;
use desk::line::lines;
use desk::reader::read;
use second::machine::Machine;

#[test]
fn objects_are_of_the_forms_that_the_second_program_says() {
    let mut library = Library::new();
    let mut many = 0;
    for index in 0..2_000 {
        let text = match index % 4 {
            0 => generator::device(7, index),
            1 => generator::idle(7, index),
            2 => generator::mill(7, index),
            _ => generator::sheet(7, index),
        };
        let budget = (index % 7 * 40) as u32;
        let Ok(run) = library.run(&text, budget) else {
            continue;
        };
        let sheet = second::read(&text).expect("an accepted sheet");
        let mut machine = Machine::start(&sheet);
        machine.run(budget);
        let wanted = machine
            .objects
            .iter()
            .map(|object| usize::from(object.form));
        let wanted: Vec<usize> = wanted.collect();
        let followed = forms(&read(&lines(&text)), &run);
        assert_eq!(followed, Some(wanted), "{index}");
        many += u32::from(run.objects > 3);
    }
    assert!(many > 300, "{many}");
}
