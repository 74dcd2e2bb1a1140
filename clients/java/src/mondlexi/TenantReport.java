// Used by: programs, Protocol, Report. It has what a line of REPORT tells (docs/PROTOCOL.md): a further figure is one of each client.
package mondlexi;

/**
 * How one tenant is.
 *
 * @param name its name
 * @param words how many words it has, 1 to {@link Client#MAX_WORDS}
 * @param quota how many changes it may have under way at a time, 1 to 64
 * @param places the greatest quota that a start of the server may give it; 0 if its file didn't open or doesn't fit its line
 * @param underWay how many changes are under way
 * @param up whether it is served; if not, its calls end as {@link MondlexiException.Fault}
 */
public record TenantReport(String name, int words, int quota, int places, int underWay, boolean up) {
}
