library package Actions {
    abstract action def Action :> Performances::Performance;
    abstract action actions : Action [0..*] :> Performances::performances;
}
