//! The sheet that document 01 shows whole: one fact, two nodes, one entity, one operation, one flow.

/// Its text.
pub const TEXT: &str = "\
1\t1\t1\t2\t0\t1\t2\t1
2\t1\t2\t5\t0\t0\t0\t0
0\t0\t1\t1\t0\t0\t0\t0
3\t0\t0\t0\t0\t0\t0\t0
1\t1\t0\t0\t0\t0\t0\t0
3\t0\t0\t0\t0\t0\t0\t0
0\t0\t1\t0\t0\t0\t0\t0
0\t0\t2\t0\t0\t0\t0\t0
1\t1\t0\t2\t2\t0\t0\t0
0\t0\t1\t0\t0\t0\t0\t0
0\t0\t2\t1\t0\t0\t0\t0
0\t2\t0\t0\t0\t0\t0\t0
1\t0\t0\t0\t2\t0\t0\t0
0\t0\t0\t2\t3\t0\t0\t0
0\t1\t0\t0\t0\t0\t0\t0
1\t1\t0\t0\t0\t0\t0\t0
1\t0\t0\t0\t0\t0\t0\t0
1\t0\t0\t0\t0\t0\t0\t0
1\t2\t0\t0\t0\t0\t0\t0
";

/// Its words, read from the text.
pub fn sheet() -> Vec<i64> {
    let mut words = vec![0; 152];
    crate::read_text(TEXT.as_bytes(), &mut words).expect("the example is a good text");
    words
}
