//! The structs of `include/ip_wire.h`.

macro_rules! structs {
    ($($(#[$meta:meta])* struct $name:ident { $($field:ident: $type:ty,)* })*) => {
        $(
            $(#[$meta])*
            #[repr(C)]
            #[derive(Clone, Copy)]
            pub struct $name {
                $(pub $field: $type,)*
            }
        )*
    };
}

macro_rules! calls {
    ($($declaration:tt)*) => {};
}

include!("../bindings/rust/src/declarations.rs");
