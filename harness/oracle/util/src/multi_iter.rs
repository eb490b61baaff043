//! Stands in for vine_util's macro `multi_iter!`.

/// A type that is one of several iterators over the same items. `Name::Variant(items)` makes one.
#[macro_export]
macro_rules! multi_iter {
    ($Name:ident { $($Variant:ident),* $(,)? }) => {
        #[allow(non_snake_case)]
        #[derive(Clone)]
        struct $Name<$($Variant),*> { $($Variant: Option<$Variant>),* }

        #[allow(non_snake_case)]
        impl<Item, $($Variant: Iterator<Item = Item>),*> $Name<$($Variant),*> {
            fn none() -> Self {
                $Name { $($Variant: None),* }
            }
            $(
                fn $Variant(items: impl IntoIterator<Item = Item, IntoIter = $Variant>) -> Self {
                    $Name { $Variant: Some(items.into_iter()), ..Self::none() }
                }
            )*
        }

        impl<Item, $($Variant: Iterator<Item = Item>),*> Iterator for $Name<$($Variant),*> {
            type Item = Item;
            fn next(&mut self) -> Option<Item> {
                $(if let Some(items) = &mut self.$Variant { return items.next(); })*
                None
            }
        }

        impl<Item, $($Variant: DoubleEndedIterator<Item = Item>),*> DoubleEndedIterator
            for $Name<$($Variant),*>
        {
            fn next_back(&mut self) -> Option<Item> {
                $(if let Some(items) = &mut self.$Variant { return items.next_back(); })*
                None
            }
        }
    };
}
