//! How many spanning trees a graph has.

/// By Kirchhoff's theorem: the determinant of the matrix of degrees and links without the row and column of node 0.
/// Exact for numbers this small.
pub fn trees(nodes: usize, pairs: &[(usize, usize)]) -> u64 {
    let mut matrix = vec![vec![0.0; nodes]; nodes];
    for &(a, b) in pairs {
        matrix[a][a] += 1.0;
        matrix[b][b] += 1.0;
        matrix[a][b] -= 1.0;
        matrix[b][a] -= 1.0;
    }
    let minor: Vec<Vec<f64>> = matrix[1..].iter().map(|row| row[1..].to_vec()).collect();
    determinant(minor).round() as u64
}

/// By elimination; such a matrix needs no exchange of rows, and a pivot of 0 makes it 0.
fn determinant(mut matrix: Vec<Vec<f64>>) -> f64 {
    let mut product = 1.0;
    for pivot in 0..matrix.len() {
        let top = matrix[pivot].clone();
        if top[pivot] < 1e-9 {
            return 0.0;
        }
        product *= top[pivot];
        for row in &mut matrix[pivot + 1..] {
            let factor = row[pivot] / top[pivot];
            row.iter_mut().zip(&top).for_each(|(x, y)| *x -= factor * y);
        }
    }
    product
}
