library package Performances {
    abstract behavior Performance :> Occurrences::Occurrence;
    abstract step performances : Performance [0..*] :> Occurrences::occurrences;
    abstract function Evaluation :> Performance;
    abstract step evaluations : Evaluation [0..*] :> performances;
}
