//! What an accepted blob shows.

/// The kinds of vectors, by the type byte that ends a blob.
#[derive(Clone, Copy, Debug, PartialEq, Eq, Hash)]
#[repr(u8)]
pub enum VectorType {
    /// f32 elements. A blob of even length has no type byte and is of this kind.
    Float32Dense = 1,
    /// f64 elements.
    Float64Dense = 2,
    /// One bit an element: 1 is 1.0, 0 is -1.0.
    Float1Bit = 3,
    /// One byte an element, then alpha and shift: an element is alpha * byte + shift.
    Float8 = 4,
    /// The f32 values that there are, then their indices.
    Float32Sparse = 9,
}

impl VectorType {
    /// The byte that names the kind.
    pub fn byte(self) -> u8 {
        self as u8
    }

    /// The kind that a byte names.
    pub fn named(byte: u8) -> Option<VectorType> {
        match byte {
            1 => Some(VectorType::Float32Dense),
            2 => Some(VectorType::Float64Dense),
            3 => Some(VectorType::Float1Bit),
            4 => Some(VectorType::Float8),
            9 => Some(VectorType::Float32Sparse),
            _ => None,
        }
    }
}

/// A vector's kind, its dims, how many readings it has, and its body. The body is a part of the caller's
/// own bytes: nothing is copied.
#[derive(Clone, Copy, Debug, PartialEq, Eq)]
pub struct View<'a> {
    kind: VectorType,
    dims: usize,
    readings: usize,
    body: &'a [u8],
}

impl<'a> View<'a> {
    pub(crate) fn new(kind: VectorType, dims: usize, readings: usize, body: &'a [u8]) -> View<'a> {
        View {
            kind,
            dims,
            readings,
            body,
        }
    }

    /// The kind.
    pub fn kind(&self) -> VectorType {
        self.kind
    }

    /// How many elements the vector has, which a blob's length does not tell.
    pub fn dims(&self) -> usize {
        self.dims
    }

    /// How many readings the vector has: the stored entries of a sparse one, repeats and zeros among them,
    /// so there may be more than dims; dims of every other kind.
    pub fn readings(&self) -> usize {
        self.readings
    }

    /// The body, without trailing count, dims and type byte.
    pub fn body(&self) -> &'a [u8] {
        self.body
    }

    /// The values of a sparse vector, 4 bytes each (f32, little-endian); nothing of another kind.
    pub fn values(&self) -> Option<&'a [u8]> {
        self.halves().map(|(values, _)| values)
    }

    /// The indices of a sparse vector, 4 bytes each (u32, little-endian); nothing of another kind.
    pub fn indices(&self) -> Option<&'a [u8]> {
        self.halves().map(|(_, indices)| indices)
    }

    fn halves(&self) -> Option<(&'a [u8], &'a [u8])> {
        match self.kind {
            VectorType::Float32Sparse => Some(self.body.split_at(self.body.len() / 2)),
            _ => None,
        }
    }
}
