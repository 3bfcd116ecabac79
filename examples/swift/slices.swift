protocol C { associatedtype S: C where S.S == S }
protocol R: C where S: R { associatedtype S }
protocol M: C where S: M { associatedtype S }
protocol X: M, R {}
func f<T: X>(_: T) {}
