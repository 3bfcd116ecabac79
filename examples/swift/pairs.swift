protocol Pair {
  associatedtype First
  associatedtype Second
  associatedtype Swapped: Pair where Swapped.Second == First, Swapped.First == Second, Swapped.Swapped == Self
}
