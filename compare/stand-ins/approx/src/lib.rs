//! Stand-in for `approx`: `relative_eq!` is Close as document 01 writes it.

/// 01, Close(a, b, e), with the relative tolerance that the call names.
#[inline]
pub fn close(a: f64, b: f64, epsilon: Option<f64>, max_relative: f64) -> bool {
    let answer = judge(a, b, epsilon.unwrap_or(f64::EPSILON), max_relative);
    recorder::compared(a, epsilon.is_none(), answer);
    answer
}

#[inline]
fn judge(a: f64, b: f64, e: f64, max_relative: f64) -> bool {
    if a == b {
        return true;
    }
    if a.is_infinite() || b.is_infinite() {
        return false;
    }
    let distance = (a - b).abs();
    if distance <= e {
        return true;
    }
    if recorder::wrong() == recorder::ABSOLUTE_TOLERANCE {
        return false;
    }
    let larger = if b.abs() > a.abs() { b.abs() } else { a.abs() };
    distance <= larger * max_relative
}

#[macro_export]
macro_rules! relative_eq {
    ($a:expr, $b:expr, epsilon = $e:expr, max_relative = $r:expr $(,)?) => {
        $crate::close($a, $b, Some($e), $r)
    };
    ($a:expr, $b:expr, max_relative = $r:expr, epsilon = $e:expr $(,)?) => {
        $crate::close($a, $b, Some($e), $r)
    };
    ($a:expr, $b:expr, max_relative = $r:expr $(,)?) => {
        $crate::close($a, $b, None, $r)
    };
}
