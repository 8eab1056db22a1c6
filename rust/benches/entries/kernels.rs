//! The kernels, each at about 6, 100, 1000 and 4096 iterations, and the worked cases of the course.

use std::fs;
use std::path::Path;

pub struct Kernel {
    pub name: &'static str,
    pub sizes: fn() -> Vec<String>,
}

pub const KERNELS: [Kernel; 13] = [
    Kernel {
        name: "stencil in one dimension",
        sizes: || [(1, 6), (4, 25), (4, 250), (4, 1024)].map(stencil_1d).into(),
    },
    Kernel {
        name: "stencil in two",
        sizes: || PLANES.map(stencil_2d).into(),
    },
    Kernel {
        name: "matrix product",
        sizes: || [[1, 2, 3], [4, 5, 5], [10, 10, 10], [16, 16, 16]].map(matrix_product).into(),
    },
    Kernel {
        name: "transposed access",
        sizes: || PLANES.map(transposed).into(),
    },
    Kernel {
        name: "histogram",
        sizes: || PLANES.map(histogram).into(),
    },
    Kernel {
        name: "triangular nest",
        sizes: || [3, 14, 44, 90].map(triangular).into(),
    },
    Kernel {
        name: "dense, one element",
        sizes: || PLANES.map(one_element).into(),
    },
    Kernel {
        name: "dense, four loops",
        sizes: || [[1, 1, 2, 3], [2, 2, 5, 5], [5, 5, 5, 8], [8, 8, 8, 8]].map(four_loops).into(),
    },
    Kernel {
        name: "chain of eight steps",
        sizes: || PLANES.map(eight_steps).into(),
    },
    Kernel {
        name: "mirrored access",
        sizes: || [6, 100, 1000, 4096].map(mirrored).into(),
    },
    Kernel {
        name: "even and odd",
        sizes: || PLANES.map(even_and_odd).into(),
    },
    Kernel {
        name: "rows end to end",
        sizes: || [(2, 3), (10, 10), (25, 40), (63, 64)].map(end_to_end).into(),
    },
    Kernel {
        name: "distant rows",
        sizes: || PLANES.map(distant_rows).into(),
    },
];

const PLANES: [(u32, u32); 4] = [(2, 3), (10, 10), (25, 40), (64, 64)];

fn stencil_1d((sweeps, width): (u32, u32)) -> String {
    format!(
        "array A({}, {})
         for t = 1 to {sweeps}
           for i = 1 to {width}
             A(t, i) = A(t-1, i-1) + A(t-1, i) + A(t-1, i+1)
         section 2 by 8",
        sweeps + 1,
        width + 2
    )
}

fn stencil_2d((rows, columns): (u32, u32)) -> String {
    format!(
        "array A({}, {})
         for i = 1 to {rows}
           for j = 1 to {columns}
             A(i, j) = A(i-1, j) + A(i, j-1) + A(i+1, j) + A(i, j+1)
         exchange 1 2",
        rows + 2,
        columns + 2
    )
}

fn matrix_product([rows, columns, depth]: [u32; 3]) -> String {
    format!(
        "array C({rows}, {columns})
         array A({rows}, {depth})
         array B({depth}, {columns})
         for i = 0 to {rows}-1
           for j = 0 to {columns}-1
             for k = 0 to {depth}-1
               C(i, j) = C(i, j) + A(i, k) + B(k, j)
         exchange 2 3"
    )
}

/// A square is turned over its diagonal in place.
fn transposed((rows, columns): (u32, u32)) -> String {
    let side = rows.max(columns);
    format!(
        "array A({side}, {side})
         for i = 0 to {rows}-1
           for j = 0 to {columns}-1
             A(i, j) = A(j, i)
         skew 1 2 by 1"
    )
}

fn histogram((rows, columns): (u32, u32)) -> String {
    format!(
        "array H({columns})
         array A({rows}, {columns})
         for i = 0 to {rows}-1
           for j = 0 to {columns}-1
             H(j) = H(j) + A(i, j)
         exchange 1 2"
    )
}

fn triangular(side: u32) -> String {
    format!(
        "array A({side}, {side})
         array B({side})
         for i = 0 to {side}-1
           for j = i to {side}-1
             A(i, j) = A(i, j) + B(j)
         exchange 1 2"
    )
}

/// Every iteration conflicts with every other, and all vectors are soon found.
fn one_element((rows, columns): (u32, u32)) -> String {
    format!(
        "array S(1)
         array A({rows}, {columns})
         for i = 0 to {rows}-1
           for j = 0 to {columns}-1
             S(0) = S(0) + A(i, j)
         section 2 by 8"
    )
}

/// An element belongs to one index of the outermost loop: the vectors that have < there are never found.
fn four_loops([i, j, k, l]: [u32; 4]) -> String {
    format!(
        "array S({i})
         array A({j}, {k}, {l})
         for i = 0 to {i}-1
           for j = 0 to {j}-1
             for k = 0 to {k}-1
               for l = 0 to {l}-1
                 S(i) = S(i) + A(j, k, l)
         exchange 1 2"
    )
}

fn eight_steps((rows, columns): (u32, u32)) -> String {
    format!(
        "array A({rows}, {columns})
         for i = 0 to {rows}-1
           for j = 0 to {columns}-1
             A(i, j) = A(i, j) + 1
         exchange 1 2
         reverse 1
         skew 1 2 by 1
         section 1 by 8
         section 3 by 8
         exchange 2 3
         exchange 1 2
         reverse 2"
    )
}

/// Conflicts lie round the middle of the range.
fn mirrored(count: u32) -> String {
    format!(
        "array A({count})
         for i = 0 to {count}-1
           A(i) = A({}-i) + 1
         section 1 by 8",
        count - 1
    )
}

/// The greatest common divisor alone tells elements that are written from those that are read.
fn even_and_odd((outer, inner): (u32, u32)) -> String {
    format!(
        "array A({})
         for i = 0 to {outer}-1
           for j = 0 to {inner}-1
             A(2*i+2*j) = A(2*i+2*j+1) + 1
         skew 1 2 by 1",
        2 * (outer + inner)
    )
}

/// A plane in one dimension.
fn end_to_end((rows, columns): (u32, u32)) -> String {
    format!(
        "array A({})
         for i = 1 to {rows}
           for j = 0 to {columns}-1
             A({columns}*i+j) = A({columns}*i+j-{columns}) + 1
         exchange 1 2",
        (rows + 1) * columns
    )
}

/// What is read was written too far away for a corner of the nest or its centre to show it, so that all points have to be searched however many
/// there are.
fn distant_rows((rows, columns): (u32, u32)) -> String {
    format!(
        "array A({}, {columns})
         for i = 16 to {}
           for j = 0 to {columns}-1
             A(i, j) = A(i-16, j) + 1
         exchange 1 2",
        rows + 16,
        rows + 15
    )
}

/// Name and text of every ticket of the course's cases 1 to 8.
pub fn worked_cases() -> Result<Vec<(String, String)>, String> {
    let course = Path::new(env!("CARGO_MANIFEST_DIR")).join("../course");
    let mut cases = Vec::new();
    for case in 1..=8 {
        let folder = course.join(format!("case-{case}"));
        let entries = fs::read_dir(&folder).map_err(|error| format!("{} cannot be read: {error}.", folder.display()))?;
        let mut files: Vec<_> = entries.filter_map(|entry| Some(entry.ok()?.path())).collect();
        files.retain(|file| file.extension().is_some_and(|extension| extension == "ticket"));
        files.sort();
        for file in files {
            let text = fs::read_to_string(&file).map_err(|error| format!("{} cannot be read: {error}.", file.display()))?;
            let name = file.file_stem().unwrap_or_default().to_string_lossy();
            cases.push((format!("{case} {name}"), text));
        }
    }
    Ok(cases)
}
