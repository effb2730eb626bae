//! Reads a day sheet on standard input, plans the day and prints the board: one line for each landing, by landing period, then
//! by due period, then in sheet order.
use hold_desk_client::{board, full_plan, read_sheet, DUE, FLIGHT_ROW, FLIGHT_WIDTH, MOST_PERIODS, NO_CURFEW, NUMBER};
use std::io::Read;
use std::process::ExitCode;

fn refused(number: u64, first: u64, second: u64) -> ExitCode {
    eprintln!("refusal,first,second\n{number},{first},{second}");
    ExitCode::FAILURE
}

fn main() -> ExitCode {
    let mut sheet = Vec::new();
    if let Err(error) = std::io::stdin().read_to_end(&mut sheet) {
        eprintln!("cannot read the sheet: {error}");
        return ExitCode::FAILURE;
    }
    let (mut capacities, mut flights) = (vec![0; MOST_PERIODS], vec![0; FLIGHT_ROW]);
    let day = read_sheet(&sheet, &mut capacities, &mut flights);
    if day.number != 0 {
        return refused(day.number, day.first, day.second);
    }
    capacities.truncate(day.first as usize);
    flights.truncate(day.second as usize * FLIGHT_WIDTH);
    let closing = day.closing as u32;
    let mut holds = vec![0; day.second as usize];
    // under a curfew the closing period has a price too
    let mut prices = vec![0; capacities.len() + usize::from(closing != NO_CURFEW)];
    let plan = full_plan(&capacities, &flights, closing, &mut holds, &mut prices);
    if plan.number != 0 {
        return refused(plan.number, plan.first, plan.second);
    }
    let mut places = vec![0; holds.len()];
    let made = board(&capacities, &flights, closing, &holds, &mut places);
    if made.number != 0 {
        return refused(made.number, made.first, made.second);
    }
    println!("lands,flight,hold");
    for place in places {
        let flight = &flights[place as usize * FLIGHT_WIDTH..];
        println!("{},{},{}", flight[DUE] + holds[place as usize], flight[NUMBER], holds[place as usize]);
    }
    println!("total\n{}", plan.first);
    ExitCode::SUCCESS
}
