library package Links {
    abstract assoc Link :> Base::Anything;
    abstract feature links : Link [0..*] :> Base::things;
    abstract feature selfLinks : Link [0..*] :> links;
}
