//! A crossing of four pads: three columns are factored, the fourth pad is added, the loads are solved for and ranked, the file is written, a refusal explained.
use wejdarox::{pad_order, rank, why_text, Lu, Panel, Refusal};

fn main() -> Result<(), Refusal> {
    // how each of three pads moves the four readings, a column a pad; the fourth pad; and the readings
    let three_pads = [4.0, 1.0, 0.0, 1.0, 1.0, 3.0, 1.0, 0.0, 0.0, 1.0, 2.0, 1.0];
    let fourth_pad = [0.0, 1.0, 1.0, 5.0];
    let readings = [6.0, -3.0, 5.0, 2.0];

    let mut crossing = Lu::factor(&three_pads, 4, 3)?;
    crossing.add_column(&fourth_pad)?;
    let loads = crossing.solve(&readings, 1)?;
    for pad in rank(&loads)? {
        println!("pad {pad}: load {}", loads[pad - 1]);
    }
    println!("determinant {}, {} rows exchanged, {} toss-ups", crossing.determinant()?, crossing.swaps().len(), crossing.toss_ups());

    let file = Panel { matrix: [&three_pads[..], &fourth_pad].concat(), readings: readings.to_vec() }.write()?;
    println!("{} bytes; first to lift: pad {}", file.len(), pad_order(&file)?.pads[0].number);

    // with the third pad's column for the fourth the matrix is singular
    let singular = Panel { matrix: [&three_pads[..], &three_pads[8..]].concat(), readings: readings.to_vec() }.write()?;
    if let Err(refusal) = pad_order(&singular) {
        println!("{refusal}");
        print!("{}", why_text(&singular));
    }
    Ok(())
}
