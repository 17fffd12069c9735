//! `cfg_if!` with one condition, the only shape that the crate's files use.

#[macro_export]
macro_rules! cfg_if {
    (if #[cfg($($c:tt)*)] { $($a:tt)* } else { $($b:tt)* }) => {
        #[cfg($($c)*)]
        $crate::pass! { $($a)* }
        #[cfg(not($($c)*))]
        $crate::pass! { $($b)* }
    };
    (if #[cfg($($c:tt)*)] { $($a:tt)* }) => {
        #[cfg($($c)*)]
        $crate::pass! { $($a)* }
    };
}

#[macro_export]
macro_rules! pass {
    ($($t:tt)*) => { $($t)* };
}
