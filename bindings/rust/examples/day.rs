//! Plans a day of three benches and prints it by bench.

use yinqocha::{Benches, Head, Job, Share, Sheet};

fn main() -> Result<(), Box<dyn std::error::Error>> {
    let any = Benches::first(3);
    let upper = Benches::of([1, 2]).ok_or("no such bench")?;
    let jobs = [(50, Benches::first(2)), (45, upper), (25, any), (20, any), (15, upper), (0, any)];
    let jobs = jobs.map(|(minutes, allowed)| Job { minutes, allowed });
    let head = Head { benches: 3, share: Share { p: 4, q: 7 }, target: 55 };
    let sheet = Sheet::write(head, &[0, 15], &jobs)?; // Bench 1 is booked for 15 minutes.
    match sheet.plan()? {
        Err(refusal) => println!("no plan: {refusal}"),
        Ok(plan) => {
            for (bench, load) in any.iter().zip(plan.loads()) {
                let jobs: Vec<usize> = plan.jobs_on(bench).collect();
                println!("bench {bench} has {load} minutes, jobs {jobs:?}");
            }
        }
    }
    Ok(())
}
