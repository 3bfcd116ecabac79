protocol Seq<C> {
  associatedtype B: Seq
  associatedtype C: Seq where C.C == Self
}
func d<T, X: Seq, Y: Seq<X.B>>(_: T, _: X, _: Y) where T == X.B {}
