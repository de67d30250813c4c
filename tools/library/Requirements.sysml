library package Requirements {
    abstract requirement def RequirementCheck :> Constraints::ConstraintCheck;
    abstract requirement requirementChecks : RequirementCheck [0..*] :> Constraints::constraintChecks;
}
