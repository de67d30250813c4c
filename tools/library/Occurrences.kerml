library package Occurrences {
    private import Base::*;
    abstract class Occurrence :> Anything;
    abstract feature occurrences : Occurrence [0..*] :> things;
}
