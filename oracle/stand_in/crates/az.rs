// Stands in for the crate az: its conversion by a plain cast.

pub trait Cast<T> {
    fn cast(self) -> T;
}
