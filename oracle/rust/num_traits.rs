//! Stands in for the crate `num_traits`, as far as dlx 0.8.5 uses it: the bound of two conversions that nothing here calls.

pub trait AsPrimitive<T: 'static + Copy>: 'static + Copy {
    fn as_(self) -> T;
}
