/// A thing of which there can be many, and how much of it there is.
protocol Item: Hashable, Identifiable {
    associatedtype Amount: Measure
    var amount: Amount { get }
}

/// A number with a unit.
protocol Measure: Comparable {
    associatedtype Value: BinaryInteger
    var value: Value { get }
    init(_ value: Value)
}

/// A place where items of one kind stand.
protocol Store<Content> {
    associatedtype Content: Item
    associatedtype Shelf: Collection where Shelf.Element == Content
    var shelf: Shelf { get }
}

struct Box<Content: Item>: Store {
    var shelf: [Content] = []
}

extension Store where Content.Amount.Value: Strideable {
    /// How much there is in all.
    func total() -> Content.Amount {
        Content.Amount(shelf.reduce(0) { $0 + $1.amount.value })
    }

    /// The items of which two stores have as much as of each other.
    func shared<Other: Store>(with other: Other) -> Set<Content>
    where Other.Content == Content, Other.Shelf.Element: Hashable {
        Set(shelf).intersection(other.shelf)
    }
}

func largest<Stores: Sequence>(of stores: Stores) -> Stores.Element?
where Stores.Element: Store, Stores.Element.Content.Amount: Comparable, Stores.Element.Shelf: BidirectionalCollection {
    stores.max { ($0.shelf.last?.amount.value ?? 0) < ($1.shelf.last?.amount.value ?? 0) }
}
