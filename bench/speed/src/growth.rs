// How times grow, with the slope between the ends of a row beside what the algorithm promises.
use crate::comparing::{Compared, Question, compare};
use crate::inputs::pattern_of_rank;
use crate::table::monomials;
use crate::timing::{Effort, USUAL};

struct Point {
    at: f64,
    compared: Compared,
}

fn slope(points: &[Point], time: impl Fn(&Compared) -> f64) -> f64 {
    // the least squares line through the logarithms
    let n = points.len() as f64;
    let xs: Vec<f64> = points.iter().map(|p| p.at.ln()).collect();
    let ys: Vec<f64> = points.iter().map(|p| time(&p.compared).max(1e-3).ln()).collect();
    let (mx, my) = (xs.iter().sum::<f64>() / n, ys.iter().sum::<f64>() / n);
    let over: f64 = xs.iter().zip(&ys).map(|(x, y)| (x - mx) * (y - my)).sum();
    let under: f64 = xs.iter().map(|x| (x - mx) * (x - mx)).sum();
    over / under
}

fn print_points(title: &str, unit: &str, promise: &str, points: &[Point]) {
    println!("\n{title}\n");
    println!("| {unit} | stairs | ours µs | plain µs | tuned µs | results |");
    println!("|---|---|---|---|---|---|");
    for p in points {
        let c = &p.compared;
        let results = if c.equal { "equal" } else { "DIFFER" };
        println!("| {} | {} | {:.1} | {:.1} | {:.1} | {results} |", p.at, c.stairs, c.ours, c.plain, c.tuned);
    }
    // the slope is taken over the upper half, where fixed costs count less
    let upper = &points[points.len() / 2..];
    println!(
        "\nslope over the upper half: ours {:.2}, plain {:.2}, tuned {:.2}; promised: {promise}",
        slope(upper, |c| c.ours), slope(upper, |c| c.plain), slope(upper, |c| c.tuned),
    );
}

pub fn print() {
    for (kind, size, field) in [(0, 65521, "mod 65521"), (1, 8, "2^8")] {
        for axes in [1, 2] {
            let widths = [4u16, 8, 12, 16, 24, 32, 40, 48, 56, 64];
            let points: Vec<Point> = widths
                .iter()
                .map(|w| {
                    let periods = if axes == 1 { vec![*w] } else { vec![*w / 4, 4] };
                    let p = pattern_of_rank(kind, size, 1, &periods, *w as usize, *w as usize);
                    Point { at: *w as f64, compared: compare(&p, &Question::Lines, &USUAL) }
                })
                .collect();
            let title = format!("Working out at full rank against width: {field}, {axes} axes, graded");
            print_points(&title, "width", "3", &points);
        }
    }

    let points: Vec<Point> = [8usize, 12, 16, 24, 32, 40, 48, 56, 64]
        .iter()
        .map(|rank| {
            let p = pattern_of_rank(0, 65521, 1, &[8, 8], *rank, *rank);
            Point { at: *rank as f64, compared: compare(&p, &Question::Lines, &USUAL) }
        })
        .collect();
    print_points("Working out at width 64 against stairs: mod 65521, 8x8, graded", "stairs", "2 from images of fixed width, 3 from combinations", &points);

    for (least, most) in [(64, 64), (26, 40)] {
        let p = pattern_of_rank(0, 65521, 1, &[8, 8], least, most);
        let points: Vec<Point> = [1u16, 4, 15, 63, 255, 1023, 4095]
            .iter()
            .map(|exponent| {
                let effort = Effort { least: 1, most: 5, enough: 100_000.0 };
                let compared = compare(&p, &Question::Refills(&monomials(&p, *exponent, 1)), &effort);
                Point { at: *exponent as f64, compared }
            })
            .collect();
        print_points("Refill against the exponents: mod 65521, 8x8, graded", "exponent", "1 once the table is paid", &points);
    }
}
