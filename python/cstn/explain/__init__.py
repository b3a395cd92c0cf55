"""Documents, refusals, refutations, trees and sessions in words."""
