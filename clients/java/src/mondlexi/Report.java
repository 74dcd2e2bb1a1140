// Used by: programs, Administrator, Protocol. It has what REPORT tells (docs/PROTOCOL.md): a further figure is one of each client.
package mondlexi;

import java.util.List;

/**
 * How all tenants are. Each number is of its own moment.
 *
 * @param tenants in the order of the server's tenants file
 * @param free how many more changes the server has room for
 */
public record Report(List<TenantReport> tenants, long free) {
}
