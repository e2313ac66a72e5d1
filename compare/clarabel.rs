//! A stand-in for the crate `clarabel`: what the reference names of it, so that the reference compiles as it stands, and
//! a status that no check should read.
//! No call that is compared reaches a solver, so no body here is ever run.

pub mod algebra {
    pub struct CscMatrix<T> {
        pub nzval: Vec<T>,
    }

    impl<T> CscMatrix<T> {
        pub fn spalloc(_size: (usize, usize), _entries: usize) -> Self {
            unreachable!()
        }

        pub fn new(
            _rows: usize,
            _columns: usize,
            _colptr: Vec<usize>,
            _rowval: Vec<usize>,
            _nzval: Vec<T>,
        ) -> Self {
            unreachable!()
        }
    }
}

pub mod solver {
    use crate::algebra::CscMatrix;

    #[derive(Debug, Clone, Copy, PartialEq)]
    pub enum SolverStatus {
        Unsolved,
        Solved,
    }

    pub enum SupportedConeT {
        ZeroConeT(usize),
        NonnegativeConeT(usize),
    }

    pub struct DefaultSettings<T> {
        pub verbose: bool,
        pub tolerance: T,
    }

    impl<T> Default for DefaultSettings<T> {
        fn default() -> Self {
            unreachable!()
        }
    }

    pub struct DefaultSolution<T> {
        pub x: Vec<T>,
        pub z: Vec<T>,
        pub status: SolverStatus,
        pub r_prim: T,
        pub r_dual: T,
    }

    pub struct DefaultSolver<T> {
        pub solution: DefaultSolution<T>,
    }

    impl<T> DefaultSolver<T> {
        pub fn new(
            _p: &CscMatrix<T>,
            _q: &[T],
            _a: &CscMatrix<T>,
            _b: &[T],
            _cones: &[SupportedConeT],
            _settings: DefaultSettings<T>,
        ) -> Result<Self, ()> {
            unreachable!()
        }
    }

    pub trait IPSolver {
        fn solve(&mut self);
    }

    impl<T> IPSolver for DefaultSolver<T> {
        fn solve(&mut self) {
            unreachable!()
        }
    }
}
