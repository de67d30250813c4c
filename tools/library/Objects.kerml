library package Objects {
    abstract struct Object :> Occurrences::Occurrence;
    abstract feature objects : Object [0..*] :> Occurrences::occurrences;
}
