library package Constraints {
    abstract constraint def ConstraintCheck :> Performances::Evaluation;
    abstract constraint constraintChecks : ConstraintCheck [0..*] :> Performances::evaluations;
}
