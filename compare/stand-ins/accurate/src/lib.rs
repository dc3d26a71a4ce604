//! Stand-in for `accurate`: Sum2 as document 01 writes it.

pub mod sum {
    #[derive(Clone, Copy, Debug)]
    pub struct Sum2<F> {
        pub(crate) s: F,
        pub(crate) c: F,
    }
}

pub mod traits {
    use crate::sum::Sum2;

    pub trait SumAccumulator<F> {
        fn zero() -> Self;
        fn add(self, b: F) -> Self;
        fn sum(self) -> F;
    }

    impl SumAccumulator<f64> for Sum2<f64> {
        #[inline]
        fn zero() -> Self {
            Sum2 { s: 0.0, c: 0.0 }
        }

        #[inline]
        fn add(self, b: f64) -> Self {
            let Sum2 { s, c } = self;
            if recorder::wrong() == recorder::PLAIN_SUM {
                return Sum2 { s: s + b, c };
            }
            let x = s + b;
            let z = x - s;
            let c = c + ((s - (x - z)) + (b - z));
            Sum2 { s: x, c }
        }

        #[inline]
        fn sum(self) -> f64 {
            let answer = self.s + self.c;
            recorder::summed(answer);
            answer
        }
    }

    pub trait SumWithAccumulator<F> {
        fn sum_with_accumulator<Acc: SumAccumulator<F>>(self) -> F;
    }

    impl<I: Iterator<Item = F>, F> SumWithAccumulator<F> for I {
        fn sum_with_accumulator<Acc: SumAccumulator<F>>(self) -> F {
            self.fold(Acc::zero(), Acc::add).sum()
        }
    }
}
