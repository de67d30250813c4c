library package Calculations {
    abstract calc def Calculation :> Actions::Action, Performances::Evaluation;
    abstract calc calculations : Calculation [0..*] :> Actions::actions, Performances::evaluations;
}
